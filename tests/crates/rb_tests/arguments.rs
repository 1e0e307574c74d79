use crate::proto::{ARGS, REMOTE, UDP_ROW, all_bytes};
use rb_arguments::{
    ArgumentFault, Entry, Mapping, Netbuf, Procedure, RemoteCall, Rpcb, VoidProcedure, read_args,
};
use rb_xdr::{Kept, Meter, Xdr};
use std::process::Abort;
use std::test::Fail;

// (200001, 1), its texts empty
const NO_TEXTS: &[u8] = b"\x00\x03\x0d\x41\0\0\0\x01\0\0\0\0\0\0\0\0\0\0\0\0";

// the row of UDP_ROW as the one entry of GETADDRLIST
const ENTRIES: &[u8] =
    b"\0\0\0\x01\0\0\0\x0d192.0.2.1.8.1\0\0\0\0\0\0\x03udp\0\0\0\0\x01\0\0\0\x04inet\0\0\0\x03udp\0\0\0\0\0";

#[test]
fn arguments_are_refused(rt: HostRuntime) {
    assert_eq!(rt;
        read_args(2, 6, b"").err(),
        Some(ArgumentFault::ProcUnavail)
    );
    assert_eq!(rt;
        read_args(2, 1, &[0; 12]).err(),
        Some(ArgumentFault::GarbageArgs)
    );
}

// PROC-1
#[test]
fn procedures_are_found(rt: HostRuntime) {
    let getstat = Procedure::Void(VoidProcedure::Getstat);
    assert_eq!(rt; Procedure::at(4, 12), Some(getstat));
    assert_eq!(rt; Procedure::at(3, 12), None);
}

#[test]
fn remote_calls_are_read(rt: HostRuntime) {
    if let Some(remote) = RemoteCall::read(REMOTE) {
        assert_eq!(rt; (remote.prog, remote.count), (200_001, 4));
        assert_eq!(rt; remote.args(REMOTE), ARGS);
    }
}

// Takes a value from the front of the bytes, and puts it into the empty buffer.
fn again<T: Xdr>(bytes: &[u8], out: &mut Kept, meter: &mut Meter) -> Result<(), Fail> {
    let (value, _) = T::take(bytes)?;
    out.clear(meter);
    value.put(out, meter)?;
    Ok(())
}

// A value of each type, through one buffer.
fn types_come_back(rt: &impl Abort, out: &mut Kept, meter: &mut Meter) -> Result<(), Fail> {
    again::<Rpcb>(UDP_ROW, out, meter)?;
    assert_eq!(rt; all_bytes(out, meter), UDP_ROW);
    again::<Mapping>(NO_TEXTS, out, meter)?;
    let (mapping, _) = NO_TEXTS.split_at(16);
    assert_eq!(rt; all_bytes(out, meter), mapping);
    let (entry, _) = ENTRIES[4..].split_at(48);
    again::<Entry>(entry, out, meter)?;
    assert_eq!(rt; all_bytes(out, meter), entry);
    let buf = b"\0\0\0\x10\0\0\0\x03abc\0";
    again::<Netbuf>(buf.as_slice(), out, meter)?;
    assert_eq!(rt; all_bytes(out, meter), buf.as_slice());
    Ok(())
}

#[test]
fn types_go_both_ways(rt: HostRuntime) -> Result<(), Fail> {
    let mut meter = Meter::new();
    let mut out = Kept::new(rt.alloc(), 100, &mut meter)?;
    types_come_back(&rt, &mut out, &mut meter)
}
