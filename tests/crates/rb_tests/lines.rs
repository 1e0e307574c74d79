//! Event lines, read and run.
use crate::proto::listener;
use rb_address::Who;
use rb_core::{Limits, Metered};
use rb_lines::{Beginning, ReadFault, read_events};
use rb_replay::{Event, Meter, run_replay};
use std::alloc::{AllocError, Global};
use std::io;
use std::io::{BufWriter, ErrorKind, Read};
use std::test::Fail;

/// Gives no byte, but an error of this kind.
#[derive(Drop)]
struct Failing(ErrorKind);

impl Read for Failing {
    fn read(&mut self, _buf: &mut [u8]) -> io::Result<usize> {
        Err(io::Error::from(self.0))
    }
}

fn beginning() -> Beginning {
    Beginning {
        limits: Limits {
            conns: 4,
            rows: 300,
            forwards: 4,
        },
        listener: listener(),
        first_xid: 1000,
        moment: 0,
        steps: false,
    }
}

/// The status, what is printed and what is said of faults.
fn ran<R: Read>(alloc: Global, reader: &mut R) -> Result<(u8, Vec<u8>, Vec<u8>), AllocError> {
    let mut output = BufWriter::new(alloc, Vec::new(alloc)).map_err(|_| AllocError)?;
    let mut faults = Vec::new(alloc);
    let (beginning, mut meter) = (beginning(), Meter::new());
    let ending = run_replay(
        alloc,
        &beginning,
        reader,
        &mut output,
        &mut faults,
        &mut meter,
    );
    let (printed, _) = output.into_parts();
    Ok((ending.status, printed, faults))
}

#[test]
fn read_events_has_memory(rt: HostRuntime) -> Result<(), Fail> {
    let alloc = rt.alloc();
    let read = read_events(alloc, b"datagram 7 127.0.0.1:900 -\n").map_err(|_| "refused")?;
    assert!(rt; matches!(read.as_slice(), [Event::Datagram(7, _, _)]));
    let refused = read_events(alloc, b"datagram 0 127.0.0.1:900 0g");
    assert!(rt; matches!(refused, Err(ReadFault::BadLine(1))));
    Ok(())
}

// Callers of event lines. A target of forwarded calls is a peer, of whom nothing else is known.
#[test]
fn callers_of_lines_are_read(rt: HostRuntime) -> Result<(), Fail> {
    let alloc = rt.alloc();
    let lines = b"open 0 local/0\ndatagram 7 [::1]:900>::1/65534 -\n";
    let read = read_events(alloc, lines).map_err(|_| "refused")?;
    let [Event::Open(0, first), Event::Datagram(7, second, _)] = read.as_slice() else {
        return Err("other events".into());
    };
    assert_eq!(rt; Some(*first), Who::read(b"local/0"));
    assert_eq!(rt; Some(*second), Who::read(b"[::1]:900>::1/65534"));
    for line in [
        b"forward 0 [::1]:2049/0 -".as_slice(),
        b"forward 0 [::1]:2049>::1 -".as_slice(),
        b"forward 0 local -".as_slice(),
    ] {
        let refused = read_events(alloc, line);
        assert!(rt; matches!(refused, Err(ReadFault::BadLine(1))));
    }
    Ok(())
}

#[test]
fn run_replay_has_memory(rt: HostRuntime) -> Result<(), Fail> {
    let mut input =
        b"datagram 0 127.0.0.1:900 000000040000000000000002000186a000000002000000030000000000000000000000000000000000030d41000000010000000600000000\ndatagram 0 127.0.0.1:900 -".as_slice();
    let (status, printed, faults) = ran(rt.alloc(), &mut input)?;
    assert_eq!(rt; status, 0);
    let wanted = b"reply 00000004000000010000000000000000000000000000000000000000\nsilent\n";
    assert_eq!(rt; printed.as_slice(), wanted.as_slice());
    assert_eq!(rt; faults.len(), 0);
    Ok(())
}

#[test]
fn says_that_reading_failed(rt: HostRuntime) -> Result<(), Fail> {
    let (status, _, faults) = ran(rt.alloc(), &mut Failing(ErrorKind::Other))?;
    assert_eq!(rt; status, 1);
    assert_eq!(rt; faults.as_slice(), b"rpcbind: read failed\n".as_slice());
    Ok(())
}

#[test]
fn says_that_memory_is_refused(rt: HostRuntime) -> Result<(), Fail> {
    let (status, _, faults) = ran(rt.alloc(), &mut Failing(ErrorKind::OutOfMemory))?;
    assert_eq!(rt; status, 1);
    assert_eq!(rt; faults.as_slice(), b"rpcbind: no memory\n".as_slice());
    Ok(())
}

#[test]
fn greatest_limits_have_memory(rt: HostRuntime) {
    let limits = Limits {
        conns: 256,
        rows: 4096,
        forwards: 64,
    };
    let made = Metered::new(rt.alloc(), limits, listener(), 1000, 0);
    assert!(rt; made.is_ok());
}
