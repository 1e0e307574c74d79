//! Rows whose programs are asked. One that answers is in tests/kept_rows.py, since here nobody would while it is asked.
use rb_address::{Host, Netid, Owner};
use rb_files::{Found, OwnHosts, ask_all};
use rb_registry::Row;
use rb_uaddr::AddressText;
use std::cell::Cell;
use std::io;
use std::io::{Read, Write};
use std::net::{Net, SocketAddr, TcpListener, TcpStream, UdpSocket};
use std::rt::Clock;
use std::test::Fail;
use std::time::Duration;

/// Where somebody listens and says nothing. Nobody is at the port after it.
const SILENT: &str = "127.0.0.1:20151";

/// Where a program acts as a test says.
const ACTING: &str = "127.0.0.1:20153";

fn row(netid: Netid, addr: AddressText) -> Row {
    Row {
        prog: 200_001,
        vers: 1,
        netid,
        owner: Owner::Unknown,
        addr,
    }
}

// KEEPCHECK-1 KEEPCHECK-2
#[test]
fn silent_programs_are_found(rt: HostRuntime) -> Result<(), Fail> {
    let _listener = TcpListener::bind(&rt, SILENT)?;
    let _socket = UdpSocket::bind(&rt, SILENT)?;
    let rows = [
        row(Netid::Tcp, AddressText::new(b"127.0.0.1.78.183")),
        row(Netid::Udp, AddressText::new(b"0.0.0.0.78.183")),
        row(Netid::Tcp, AddressText::new(b"0.0.0.0.78.184")),
        row(Netid::Udp, AddressText::new(b"127.0.0.1.78.184")),
        row(Netid::Tcp, AddressText::new(b"192.0.2.7.78.184")),
        row(Netid::Local, AddressText::new(b"/run/x")),
        row(Netid::Udp6, AddressText::new(b"127.0.0.1.78.184")),
    ];
    let own = OwnHosts {
        bound: &[Host::V4([127, 0, 0, 1])],
        announced: &[Host::V4([192, 0, 2, 1])],
    };
    let found = ask_all(&rt, rt.alloc(), &rows, own)?;
    let wanted = [
        Found::Silent,
        Found::Silent,
        Found::NobodyThere,
        Found::NobodyThere,
        Found::NotKnown,
        Found::NotKnown,
        Found::NotKnown,
    ];
    assert_eq!(rt; found.as_slice(), wanted.as_slice());
    Ok(())
}

// KEEPCHECK-2
/// More programs than are asked at a time: each place is free once something is known of its row. The clock stands still.
#[test]
fn places_are_taken_again(rt: HostRuntime) -> Result<(), Fail> {
    let mut rows = Vec::new(rt.alloc());
    for _ in 0..70 {
        for netid in [Netid::Tcp, Netid::Udp] {
            rows.push(row(netid, AddressText::new(b"127.0.0.1.78.184")))?;
        }
    }
    let own = OwnHosts {
        bound: &[],
        announced: &[],
    };
    let moments = [0; 300];
    let system = Passing::new(&rt, &moments, None);
    let found = ask_all(&system, rt.alloc(), rows.as_slice(), own)?;
    let asked = found.iter().filter(|known| **known == Found::NobodyThere);
    assert_eq!(rt; asked.count(), rows.len());
    Ok(())
}

/// What the program does that was asked.
#[derive(Clone, Copy)]
enum Program<'a> {
    /// It answers a datagram by one of no bytes.
    Answers(&'a UdpSocket),
    /// It takes a connection, reads the call and closes it.
    Closes(&'a TcpListener),
    /// It takes a connection, reads the call, answers by a byte, and has the connection for later.
    Holds(&'a TcpListener, &'a Cell<Option<TcpStream>>),
}

/// A NULL call of program 200001, version 1, after its xid (RFC 5531 sections 9 and 12.1).
const CALL: &[u8] = b"\0\0\0\0\0\0\0\x02\0\x03\x0d\x41\0\0\0\x01\
\0\0\0\0\0\0\0\0\0\0\0\0\0\0\0\0\0\0\0\0";

/// A connection, and whether the call over it is as it must be: one fragment of 40 bytes (RFC 5531 section 11).
fn called(listener: &TcpListener) -> io::Result<(TcpStream, bool)> {
    let (mut stream, _) = listener.accept()?;
    let mut call = [0; 44];
    stream.read_exact(&mut call)?;
    let is_right = &call[..4] == b"\x80\0\0\x28".as_slice() && &call[8..] == CALL;
    Ok((stream, is_right))
}

impl Program<'_> {
    /// Whether the call is as it must be.
    fn acts(&self) -> io::Result<bool> {
        let mut room = [0; 64];
        match self {
            Program::Answers(socket) => {
                let (count, from) = socket.recv_from(&mut room)?;
                socket.send_to(b"", from)?;
                Ok(count == 40 && &room[4..40] == CALL)
            }
            Program::Closes(listener) => Ok(called(listener)?.1),
            Program::Holds(listener, held) => {
                let (mut stream, is_right) = called(listener)?;
                stream.write_all(b"\0")?;
                held.set(Some(stream));
                Ok(is_right)
            }
        }
    }
}

/// The system, with a clock that shows these milliseconds, one at each look, and then those long after. The program acts
/// before the last of them.
#[derive(Drop)]
struct Passing<'a> {
    rt: HostRuntime,
    moments: &'a [u64],
    looks: Cell<usize>,
    program: Option<Program<'a>>,
    is_right: Cell<bool>,
}

impl<'a> Passing<'a> {
    fn new(rt: &HostRuntime, moments: &'a [u64], program: Option<Program<'a>>) -> Passing<'a> {
        Passing {
            rt: *rt,
            moments,
            looks: Cell::new(0),
            program,
            is_right: Cell::new(program.is_none()),
        }
    }
}

impl Clock for Passing<'_> {
    fn monotonic(&self) -> io::Result<Duration> {
        let look = self.looks.get().saturating_add(1);
        self.looks.set(look);
        if let Some(program) = &self.program {
            if look == self.moments.len() {
                self.is_right.set(program.acts()?);
            }
        }
        let moment = self.moments.get(look.saturating_sub(1));
        Ok(Duration::from_millis(moment.copied().unwrap_or(60_000)))
    }

    fn since_1970(&self) -> io::Result<Duration> {
        self.rt.since_1970()
    }
}

impl Net for Passing<'_> {
    type Stream = <HostRuntime as Net>::Stream;

    type Listener = <HostRuntime as Net>::Listener;

    fn bind(&self, addr: SocketAddr) -> io::Result<Self::Listener> {
        self.rt.bind(addr)
    }

    fn connect(&self, addr: SocketAddr) -> io::Result<Self::Stream> {
        self.rt.connect(addr)
    }

    fn bind_udp(&self, addr: SocketAddr) -> io::Result<UdpSocket> {
        self.rt.bind_udp(addr)
    }
}

/// What is found of a program at the port of the one that acts, over this transport, beside one where nobody is.
fn found_while(system: &Passing<'_>, netid: Netid) -> Result<[Found; 2], Fail> {
    let rows = [
        row(netid, AddressText::new(b"127.0.0.1.78.185")),
        row(Netid::Udp, AddressText::new(b"127.0.0.1.78.184")),
    ];
    let own = OwnHosts {
        bound: &[],
        announced: &[],
    };
    let found = ask_all(system, system.rt.alloc(), &rows, own)?;
    Ok([found[0], found[1]])
}

// KEEPCHECK-2
/// Programs are asked once, until a second is over, and heard until two are; a connection that ends without a byte says
/// nothing.
#[test]
fn programs_have_their_time(rt: HostRuntime) -> Result<(), Fail> {
    let socket = UdpSocket::bind(&rt, ACTING)?;
    let listener = TcpListener::bind(&rt, ACTING)?;
    socket.set_nonblocking(true)?;
    listener.set_nonblocking(true)?;
    let answers = Some(Program::Answers(&socket));
    let closes = Some(Program::Closes(&listener));
    let held = Cell::new(None);
    let holds = Some(Program::Holds(&listener, &held));
    for (moments, program, netid, wanted) in [
        (
            [0, 999, 1_999],
            answers,
            Netid::Udp,
            [Found::Answered, Found::NobodyThere],
        ),
        (
            [0, 999, 2_000],
            answers,
            Netid::Udp,
            [Found::Silent, Found::NobodyThere],
        ),
        (
            [0, 999, 1_999],
            closes,
            Netid::Tcp,
            [Found::NotKnown, Found::NobodyThere],
        ),
        (
            [0, 999, 1_999],
            holds,
            Netid::Tcp,
            [Found::Answered, Found::NobodyThere],
        ),
        (
            [0, 1_000, 1_000],
            None,
            Netid::Udp,
            [Found::NotKnown, Found::NotKnown],
        ),
    ] {
        let system = Passing::new(&rt, &moments, program);
        let found = found_while(&system, netid)?;
        assert_eq!(rt; found.as_slice(), wanted.as_slice());
        assert!(rt; system.is_right.get());
    }
    let Some(mut stream) = held.take() else {
        return Err("it was not called".into());
    };
    assert_eq!(rt; stream.read(&mut [0; 64])?, 0);
    Ok(())
}
