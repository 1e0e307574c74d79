//! Datagrams that are no reply to the forwarded call: they are ignored, and the honest reply passes after them.

use crate::cores::{bytes_of, core_of, loopback, set_call};
use rb_address::{Host, Peer};
use rb_core::{FwdId, Metered, Response, Told};
use std::process::Abort;
use std::test::Fail;

const HOST: [u8; 4] = [127, 0, 0, 1];

const PORT: u16 = 2049;

/// Where the program 200001 version 1 listens.
fn target() -> Peer {
    Peer::new(Host::V4(HOST), PORT)
}

/// The xid of the first forwarded call.
const XID: u32 = 1000;

/// An INDIRECT of version 4 to procedure 0 of that program, without arguments.
const INDIRECT: [u32; 14] = [15, 0, 2, 100_000, 4, 10, 0, 0, 0, 0, 200_001, 1, 0, 0];

/// The reply to it if the target answers: the address 192.0.2.1.8.1, and no results.
const PASSED: [u32; 12] = [
    15, 1, 0, 0, 0, 0, 13, 0x3139322e, 0x302e322e, 0x312e382e, 0x31000000, 0,
];

/// A reply to a call of this xid, which succeeded without results.
fn success(xid: u32) -> [u8; 24] {
    let [a, b, c, d] = xid.to_be_bytes();
    [
        a, b, c, d, 0, 0, 0, 1, 0, 0, 0, 0, 0, 0, 0, 0, 0, 0, 0, 0, 0, 0, 0, 0,
    ]
}

fn is_ignored(core: &mut Metered, from: Peer, reply: &[u8]) -> bool {
    core.forward_reply(2000, from, reply).is_none()
}

/// One bit of the xid is another.
fn other_xids_are_ignored(core: &mut Metered) -> bool {
    for bit in 0..32 {
        if !is_ignored(core, target(), &success(XID ^ 1u32.wrapping_shl(bit))) {
            return false;
        }
    }
    true
}

/// One bit of the host is another.
fn other_hosts_are_ignored(core: &mut Metered) -> bool {
    let honest = u32::from_be_bytes(HOST);
    for bit in 0..32 {
        let host = (honest ^ 1u32.wrapping_shl(bit)).to_be_bytes();
        let from = Peer::new(Host::V4(host), PORT);
        if !is_ignored(core, from, &success(XID)) {
            return false;
        }
    }
    true
}

/// One bit of the port is another.
fn other_ports_are_ignored(core: &mut Metered) -> bool {
    for bit in 0..16 {
        let from = Peer::new(Host::V4(HOST), PORT ^ 1u16.wrapping_shl(bit));
        if !is_ignored(core, from, &success(XID)) {
            return false;
        }
    }
    true
}

/// A call is forwarded, and waits to be sent.
fn forwards(rt: &impl Abort, core: &mut Metered, set: &[u8], indirect: &[u8]) {
    assert_eq!(rt; core.datagram(0, loopback(), set), Response::Reply);
    assert_eq!(rt;
        core.datagram(1000, loopback(), indirect),
        Response::Forwarded
    );
}

/// What the target answers passes in the last millisecond.
fn honest_reply_passes(rt: &impl Abort, core: &mut Metered, passed: &[u8]) {
    let told = core.forward_reply(5999, target(), &success(XID));
    let first = FwdId { number: 1 };
    assert_eq!(rt; told, Some(Told::Datagram(first, loopback())));
    assert_eq!(rt; core.udp_reply(), passed);
}

#[test]
fn forged_replies(rt: HostRuntime) -> Result<(), Fail> {
    let set = bytes_of(rt.alloc(), &set_call(1, 200_001, 17))?;
    let indirect = bytes_of(rt.alloc(), &INDIRECT)?;
    let passed = bytes_of(rt.alloc(), &PASSED)?;
    let mut core = core_of(rt.alloc(), 300)?;
    forwards(&rt, &mut core, &set, &indirect);
    assert!(rt;
        is_ignored(&mut core, target(), &success(XID)),
        "before it was sent"
    );
    assert_eq!(rt; core.sent(FwdId { number: 1 }), Ok(()));
    assert!(rt; other_xids_are_ignored(&mut core));
    assert!(rt; other_hosts_are_ignored(&mut core));
    assert!(rt; other_ports_are_ignored(&mut core));
    assert!(rt; is_ignored(&mut core, target(), &[0, 0, 3]));
    honest_reply_passes(&rt, &mut core, &passed);
    Ok(())
}
