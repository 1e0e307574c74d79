//! Rows that are kept: written, read and set again.
use crate::proto::listener;
use rb_core::{Limits, Metered, Response};
use rb_engine::{write_change, write_rows};
use rb_keep::{KeepFault, Owners, read_rows, set_call, this_machine, unset_call, whole_part};
use std::test::Fail;

const LIMITS: Limits = Limits {
    conns: 4,
    rows: 300,
    forwards: 4,
};

// What tests/row.py makes of
// datagram 8 127.0.0.1:0 (xid=0 4 set 200001 1 tcp 0.0.0.0.8.1)
// datagram 8 127.0.0.1:0 (xid=0 uid=1000 4 set 200002 3 local /run/x.sock)
const KEPT: &[u8] = b"datagram 8 127.0.0.1:0 \
000000000000000000000002000186a000000004000000010000000000000000000000000000000000030d410000000100000003\
746370000000000b302e302e302e302e382e310000000000
datagram 8 127.0.0.1:0 \
000000000000000000000002000186a0000000040000000100000001000000140000000000000000000003e80000000000000000\
000000000000000000030d4200000003000000056c6f63616c0000000000000b2f72756e2f782e736f636b0000000000
";

// What it makes of
// datagram 9 127.0.0.1:0 (xid=0 4 unset 200001 1 tcp)
const GONE: &[u8] = b"datagram 9 127.0.0.1:0 \
000000000000000000000002000186a000000004000000020000000000000000000000000000000000030d41000000010000\
0003746370000000000000000000
";

// LOOK-1 KEEP-2 KEEP-3 KEEP-5 KEEP-7
#[test]
fn kept_rows_are_written_again(rt: HostRuntime) -> Result<(), Fail> {
    let alloc = rt.alloc();
    let mut core = Metered::new(alloc, LIMITS, listener(), 1000, 8)?;
    let rows = read_rows(alloc, KEPT)?;
    assert_eq!(rt; rows.len(), 2);
    for row in &rows {
        let call = set_call(row);
        let told = core.datagram(8, this_machine(), call.as_slice());
        assert_eq!(rt; told, Response::Reply);
    }
    assert_eq!(rt; core.changes(), 2);
    let mut written = Vec::new(alloc);
    write_rows(&mut core, &mut written)?;
    assert_eq!(rt; written.as_slice(), KEPT);
    Ok(())
}

// KEEP-11 KEEP-12 KEEP-13 KEEP-14
#[test]
fn changes_are_added(rt: HostRuntime) -> Result<(), Fail> {
    let alloc = rt.alloc();
    let mut core = Metered::new(alloc, LIMITS, listener(), 1000, 8)?;
    let rows = read_rows(alloc, KEPT)?;
    let (mut owners, mut written) = (Owners::new(alloc, 300)?, Vec::new(alloc));
    for row in &rows {
        core.datagram(8, this_machine(), set_call(row).as_slice());
        write_change(&mut core, &mut owners, row.prog, row.vers, &mut written)?;
        write_change(&mut core, &mut owners, row.prog, row.vers, &mut written)?;
    }
    assert_eq!(rt; written.as_slice(), KEPT);
    assert_eq!(rt; owners.count(), 2);
    let gone = unset_call(&rows[0]);
    let told = core.datagram(9, this_machine(), gone.as_slice());
    assert_eq!(rt; told, Response::Reply);
    write_change(&mut core, &mut owners, 200_001, 1, &mut written)?;
    assert_eq!(rt; owners.count(), 1);
    assert_eq!(rt; &written[KEPT.len()..], GONE);
    written.extend_from_slice(b"datagram 9 12")?;
    let left = read_rows(alloc, &written)?;
    assert_eq!(rt; left.len(), 1);
    assert_eq!(rt; left[0].prog, 200_002);
    assert_eq!(rt; whole_part(&written).len(), KEPT.len() + GONE.len());
    Ok(())
}

// KEEP-4 KEEP-5
#[test]
fn other_lines_are_named(rt: HostRuntime) -> Result<(), Fail> {
    let alloc = rt.alloc();
    let of_another = read_rows(alloc, b"# kept\n\ndatagram 8 127.0.0.1:1 -\n");
    assert!(rt; matches!(of_another, Err(KeepFault::NotKept(3))));
    let bad = read_rows(alloc, b"datagram 8\n");
    assert!(rt; matches!(bad, Err(KeepFault::BadLine(1))));
    Ok(())
}
