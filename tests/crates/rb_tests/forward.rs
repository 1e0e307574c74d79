use crate::address::claims;
use rb_address::{Caller, Host, Peer};
use rb_arguments::Kind;
use rb_forward::{Forward, Forwards};
use rb_xdr::Meter;
use std::test::Fail;

fn loopback(port: u16) -> Peer {
    Peer::new(Host::V4([127, 0, 0, 1]), port)
}

// Procedure 0 of program 200001, version 1, for a datagram of xid 15.
fn forward() -> Forward {
    Forward {
        caller: Caller::Udp(claims([127, 0, 0, 1], 900), 9_000),
        xid: 15,
        kind: Kind::Indirect,
        target: loopback(2049),
        shown: loopback(2049),
        prog: 200_001,
        vers: 1,
        proc: 0,
    }
}

#[test]
fn forwards_has_memory(rt: HostRuntime) -> Result<(), Fail> {
    let mut meter = Meter::new();
    let mut forwards = Forwards::new(rt.alloc(), 1, 7, &mut meter)?;
    assert!(rt; forwards.start(0, &forward(), b"", &mut meter).is_ok());
    assert!(rt; forwards.start(0, &forward(), b"", &mut meter).is_err());
    Ok(())
}
