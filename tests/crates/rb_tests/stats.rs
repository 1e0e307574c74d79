use rb_address::Netid;
use rb_stats::{Stats, Target, Version};
use rb_xdr::{Kept, Meter};
use std::process::Abort;
use std::test::Fail;

const TARGET: Target = Target {
    prog: 200_001,
    vers: 1,
    netid: Netid::Tcp,
};

// A call of procedure 1 and a SET in version 2, an UNSET in version 4, a look-up that found its row
// in version 2, and a call of procedure 0 by INDIRECT in version 4 that failed (RFC 1833 section 2.1).
const NOTED: &[u8] = b"\
    \0\0\0\0\0\0\0\x01\0\0\0\0\0\0\0\0\0\0\0\0\0\0\0\0\0\0\0\0\
    \0\0\0\0\0\0\0\0\0\0\0\0\0\0\0\0\0\0\0\0\0\0\0\0\
    \0\0\0\x01\0\0\0\0\
    \0\0\0\x01\0\x03\x0d\x41\0\0\0\x01\0\0\0\x01\0\0\0\0\0\0\0\x03\x74\x63\x70\0\0\0\0\0\
    \0\0\0\0\
    \0\0\0\0\0\0\0\0\0\0\0\0\0\0\0\0\0\0\0\0\0\0\0\0\0\0\0\0\
    \0\0\0\0\0\0\0\0\0\0\0\0\0\0\0\0\0\0\0\0\0\0\0\0\
    \0\0\0\0\0\0\0\0\0\0\0\0\0\0\0\0\
    \0\0\0\0\0\0\0\0\0\0\0\0\0\0\0\0\0\0\0\0\0\0\0\0\0\0\0\0\
    \0\0\0\0\0\0\0\0\0\0\0\0\0\0\0\0\0\0\0\0\0\0\0\0\
    \0\0\0\0\0\0\0\x01\
    \0\0\0\0\
    \0\0\0\x01\0\x03\x0d\x41\0\0\0\x01\0\0\0\0\
    \0\0\0\0\0\0\0\x01\0\0\0\x01\0\0\0\x03\x74\x63\x70\0\0\0\0\0";

// What the results above tell.
fn note_all(stats: &mut Stats, meter: &mut Meter) {
    stats.note_call(Version::Two, 1);
    stats.note_set(Version::Two);
    stats.note_unset(Version::Four);
    stats.note_addr(Version::Two, TARGET, true, meter);
    stats.note_remote(Version::Four, TARGET, 0, false, true, meter);
}

// They are held, and put if there is room for all of them.
fn notes_are_put(rt: &impl Abort, stats: &Stats, out: &mut Kept, meter: &mut Meter) {
    assert_eq!(rt; stats.held(), 96);
    assert!(rt; stats.put(267, out, meter).is_err());
    assert!(rt; stats.put(268, out, meter).is_ok());
    let len = out.len(meter);
    assert_eq!(rt; out.lend(0..len, meter), NOTED);
}

#[test]
fn stats_has_memory(rt: HostRuntime) -> Result<(), Fail> {
    let mut meter = Meter::new();
    let mut stats = Stats::new(rt.alloc(), &mut meter)?;
    let mut out = Kept::new(rt.alloc(), 1000, &mut meter)?;
    note_all(&mut stats, &mut meter);
    notes_are_put(&rt, &stats, &mut out, &mut meter);
    Ok(())
}

// What they are when nothing was called: 17 numbers of each version.
const NOTHING: &[u8] = &[0; 204];

// STAT-7
// They begin anew: nothing is held, zeros are put, and the same notes count as before.
#[test]
fn stats_begin_anew(rt: HostRuntime) -> Result<(), Fail> {
    let mut meter = Meter::new();
    let mut stats = Stats::new(rt.alloc(), &mut meter)?;
    let mut out = Kept::new(rt.alloc(), 1000, &mut meter)?;
    note_all(&mut stats, &mut meter);
    stats.clear(&mut meter);
    assert_eq!(rt; stats.held(), 0);
    assert!(rt; stats.put(1000, &mut out, &mut meter).is_ok());
    let len = out.len(&mut meter);
    assert_eq!(rt; out.lend(0..len, &mut meter), NOTHING);
    out.clear(&mut meter);
    note_all(&mut stats, &mut meter);
    notes_are_put(&rt, &stats, &mut out, &mut meter);
    Ok(())
}
