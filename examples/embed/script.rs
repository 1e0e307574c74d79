//! A script for the driver: what comes in, at which moment, and what goes out for it.

use crate::driver::{Input, Outside, drive};
use rb_address::{Host, Peer, Source, Trust, Who};
use rb_core::{CoreFault, Limits, Listener, Metered};
use rb_proto::{Announced, Reserved, Terms};
use std::alloc::{AllocError, Global};
use std::test::Fail;

/// What went out.
#[derive(Clone, Copy, Debug, PartialEq, Eq)]
enum Sent {
    /// The number of a connection that was accepted, or with what it was refused.
    Number(Result<u64, CoreFault>),
    /// This many bytes on a connection.
    Bytes(u64, usize),
    /// A reply of this many bytes to a datagram.
    Reply(usize),
    /// A forwarded call of this many bytes, to this port.
    Call(u16, usize),
    /// The closing of a connection.
    Closing(u64),
}

/// In place of sockets: the bytes that arrived on the one connection that is open, and a list of what went out.
#[derive(Drop)]
struct Script {
    arrived: Vec<u8>,
    sent: Vec<Sent>,
}

impl Script {
    fn note(&mut self, sent: Sent) {
        self.sent.push(sent).unwrap_or(());
    }
}

impl Outside for Script {
    fn opened(&mut self, number: Result<u64, CoreFault>) {
        self.note(Sent::Number(number));
    }

    fn arrived(&self, _id: u64) -> &[u8] {
        &self.arrived
    }

    fn take(&mut self, _id: u64, count: usize) {
        self.arrived.drain(..count);
    }

    fn write(&mut self, id: u64, bytes: &[u8]) {
        if !bytes.is_empty() {
            self.note(Sent::Bytes(id, bytes.len()));
        }
    }

    fn reply(&mut self, _who: Who, reply: &[u8]) {
        self.note(Sent::Reply(reply.len()));
    }

    fn call(&mut self, target: Peer, call: &[u8]) {
        self.note(Sent::Call(target.port(), call.len()));
    }

    fn close(&mut self, id: u64) {
        self.note(Sent::Closing(id));
    }
}

/// A caller of this machine, of whom no more is known.
fn caller() -> Who {
    Who {
        source: Source::Inet(Peer::new(Host::V4([127, 0, 0, 1]), 900)),
        asked: Host::V4([0; 4]),
        trust: Trust::Claims,
    }
}

/// A core that listens on IPv4 alone.
fn new_core(alloc: Global) -> Result<Metered, CoreFault> {
    let limits = Limits {
        conns: 4,
        rows: 300,
        forwards: 4,
    };
    let listener = Listener {
        announced: Announced {
            inet: Some([192, 0, 2, 1]),
            inet6: None,
        },
        port: 111,
        local: None,
        terms: Terms::OPEN,
        reserved: Reserved::new(),
    };
    Metered::new(alloc, limits, listener, 1000, 0)
}

fn bytes_of(alloc: Global, words: &[u32]) -> Result<Vec<u8>, AllocError> {
    let mut bytes = Vec::new(alloc);
    for word in words {
        bytes.extend_from_slice(&word.to_be_bytes())?;
    }
    Ok(bytes)
}

/// Whole records of a connection: NULL, and DUMP of version 2, INDIRECT of version 4 to procedure 0 of program 200001,
/// and a message that is no call.
const NULL: [u32; 11] = [0x8000_0028, 1, 0, 2, 100_000, 2, 0, 0, 0, 0, 0];

const DUMP: [u32; 11] = [0x8000_0028, 2, 0, 2, 100_000, 2, 4, 0, 0, 0, 0];

const INDIRECT: [u32; 15] = [
    0x8000_0038,
    3,
    0,
    2,
    100_000,
    4,
    10,
    0,
    0,
    0,
    0,
    200_001,
    1,
    0,
    0,
];

const NO_CALL: [u32; 11] = [0x8000_0028, 4, 1, 2, 100_000, 2, 0, 0, 0, 0, 0];

/// A SET of version 2: that program listens on port 2049, over UDP.
const SET: [u32; 14] = [5, 0, 2, 100_000, 2, 1, 0, 0, 0, 0, 200_001, 1, 17, 2049];

/// The reply of the program to the first call that is forwarded to it: it succeeded, without results.
const ANSWERED: [u32; 6] = [1000, 1, 0, 0, 0, 0];

/// Where the program listens.
fn target() -> Peer {
    Peer::new(Host::V4([127, 0, 0, 1]), 2049)
}

/// A script that went through so far, with its core.
#[derive(Drop)]
struct Played {
    core: Metered,
    script: Script,
}

impl Played {
    fn new(alloc: Global) -> Result<Played, CoreFault> {
        let script = Script {
            arrived: Vec::new(alloc),
            sent: Vec::new(alloc),
        };
        let core = new_core(alloc)?;
        Ok(Played { core, script })
    }

    /// What went out for this input.
    fn play(&mut self, now: u64, input: Input<'_>) -> &[Sent] {
        self.script.sent.clear();
        drive(&mut self.core, &mut self.script, now, input);
        &self.script.sent
    }

    /// What went out when these bytes arrived on the connection.
    fn hear(&mut self, now: u64, id: u64, bytes: &[u8]) -> Result<&[Sent], AllocError> {
        self.script.arrived.extend_from_slice(bytes)?;
        Ok(self.play(now, Input::Arrived(id)))
    }
}

/// Records in pieces and several in one, replies of one fragment and a list, and a message that is no call.
#[test]
fn a_connection_is_served(rt: HostRuntime) -> Result<(), Fail> {
    let mut played = Played::new(rt.alloc())?;
    let null = bytes_of(rt.alloc(), &NULL)?;
    let dump = bytes_of(rt.alloc(), &DUMP)?;
    let no_call = bytes_of(rt.alloc(), &NO_CALL)?;
    assert_eq!(rt;
        played.play(0, Input::Accepted(caller())),
        [Sent::Number(Ok(1))].as_slice()
    );
    assert_eq!(rt; played.hear(10, 1, &null[..20])?, [].as_slice());
    assert_eq!(rt;
        played.hear(20, 1, &null[20..])?,
        [Sent::Bytes(1, 28)].as_slice()
    );
    assert_eq!(rt;
        played.hear(30, 1, &dump)?,
        [Sent::Bytes(1, 152)].as_slice()
    );
    assert_eq!(rt;
        played.hear(40, 1, &no_call)?,
        [Sent::Closing(1)].as_slice()
    );
    Ok(())
}

/// A record whose call is forwarded, with another after it: that waits until the reply came.
#[test]
fn a_call_is_forwarded(rt: HostRuntime) -> Result<(), Fail> {
    let mut played = Played::new(rt.alloc())?;
    let set = bytes_of(rt.alloc(), &SET)?;
    let indirect = bytes_of(rt.alloc(), &INDIRECT)?;
    let null = bytes_of(rt.alloc(), &NULL)?;
    let answered = bytes_of(rt.alloc(), &ANSWERED)?;
    assert_eq!(rt;
        played.play(0, Input::Datagram(caller(), &set)),
        [Sent::Reply(28)].as_slice()
    );
    played.play(0, Input::Accepted(caller()));
    played.script.arrived.extend_from_slice(&indirect)?;
    assert_eq!(rt;
        played.hear(10, 1, &null)?,
        [Sent::Call(2049, 40)].as_slice()
    );
    assert_eq!(rt;
        played.play(20, Input::ForwardReply(target(), &answered)),
        [Sent::Bytes(1, 52), Sent::Bytes(1, 28)].as_slice()
    );
    Ok(())
}

/// A forwarded call that is not answered ends at its deadline, and a connection on which nothing comes at its own.
#[test]
fn deadlines_come(rt: HostRuntime) -> Result<(), Fail> {
    let mut played = Played::new(rt.alloc())?;
    let set = bytes_of(rt.alloc(), &SET)?;
    let indirect = bytes_of(rt.alloc(), &INDIRECT[1..])?;
    played.play(0, Input::Datagram(caller(), &set));
    played.play(0, Input::Accepted(caller()));
    assert_eq!(rt;
        played.play(10, Input::Datagram(caller(), &indirect)),
        [Sent::Call(2049, 40)].as_slice()
    );
    assert_eq!(rt; played.core.next_deadline(), Some(5_010));
    assert_eq!(rt;
        played.play(5_010, Input::Deadline),
        [Sent::Reply(24)].as_slice()
    );
    assert_eq!(rt; played.core.next_deadline(), Some(300_000));
    assert_eq!(rt;
        played.play(300_000, Input::Deadline),
        [Sent::Closing(1)].as_slice()
    );
    assert_eq!(rt; played.core.next_deadline(), None);
    Ok(())
}
