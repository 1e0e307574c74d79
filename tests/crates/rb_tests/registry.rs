use arrayvec::ArrayVec;
use rb_address::{Netid, Owner};
use rb_registry::{Cursor, MOST_OWN_ROWS, Registry, RegistryFault, Row, Which};
use rb_uaddr::Uaddr;
use rb_xdr::Meter;
use std::process::Abort;
use std::test::Fail;

// A row at port 111 of every host.
fn row(prog: u32, vers: u32, netid: Netid, owner: Owner) -> Row {
    Row {
        prog,
        vers,
        netid,
        owner,
        addr: Uaddr::any(111).text(),
    }
}

// Program 100000, versions 4, 3 and 2, on tcp and then on udp.
fn own_rows() -> ArrayVec<Row, MOST_OWN_ROWS> {
    let mut rows = ArrayVec::new();
    for netid in [Netid::Tcp, Netid::Udp] {
        for vers in [4, 3, 2] {
            rows.push(row(100_000, vers, netid, Owner::SUPERUSER));
        }
    }
    rows
}

// The last digit of each row's version, in the order of the rows.
fn versions(registry: &Registry, meter: &mut Meter) -> u64 {
    let stamp = registry.stamp();
    let mut digits: u64 = 0;
    let mut cursor = Cursor::start();
    'rows: while let Some((next, listed)) = registry.next_row(stamp, cursor, meter) {
        digits = digits
            .wrapping_mul(10)
            .wrapping_add(u64::from(listed.as_row().vers % 10));
        cursor = next;
    }
    digits
}

#[test]
fn registry_has_memory(rt: HostRuntime) -> Result<(), Fail> {
    let mut meter = Meter::new();
    let registry = Registry::new(rt.alloc(), 8, own_rows(), &mut meter)?;
    assert_eq!(rt; registry.len(&mut meter), 6);
    let refused = Registry::new(rt.alloc(), 5, own_rows(), &mut meter);
    assert!(rt; matches!(refused, Err(RegistryFault::BadLimits)));
    let refused = Registry::new(rt.alloc(), usize::MAX, own_rows(), &mut meter);
    assert!(rt; matches!(refused, Err(RegistryFault::NoMemory)));
    let empty = Registry::new(rt.alloc(), 0, ArrayVec::new(), &mut meter)?;
    assert_eq!(rt; empty.len(&mut meter), 0);
    Ok(())
}

// Two versions of a program are set, and the first of them no second time.
fn two_are_set(rt: &impl Abort, registry: &mut Registry, meter: &mut Meter) {
    let uid = Owner::Uid(500);
    assert!(rt; registry.set(row(200_001, 1, Netid::Tcp, uid), meter));
    assert!(rt; !registry.set(row(200_001, 1, Netid::Tcp, uid), meter));
    assert!(rt; registry.set(row(200_001, 3, Netid::Tcp, uid), meter));
    assert_eq!(rt; registry.stamp(), 2);
}

// They are found, after the own rows.
fn two_are_found(rt: &impl Abort, registry: &Registry, meter: &mut Meter) -> Result<(), Fail> {
    let newest = registry
        .find(200_001, 9, Netid::Tcp, meter)
        .ok_or("no row")?;
    assert_eq!(rt; newest.vers, 3);
    assert!(rt; registry.find_exact(200_001, 9, Netid::Tcp, meter).is_none());
    assert_eq!(rt; versions(registry, meter), 43_243_213);
    Ok(())
}

#[test]
fn rows_are_set_and_found(rt: HostRuntime) -> Result<(), Fail> {
    let mut meter = Meter::new();
    let mut registry = Registry::new(rt.alloc(), 300, own_rows(), &mut meter)?;
    two_are_set(&rt, &mut registry, &mut meter);
    two_are_found(&rt, &registry, &mut meter)
}

#[test]
fn rows_are_removed(rt: HostRuntime) -> Result<(), Fail> {
    let mut meter = Meter::new();
    let mut registry = Registry::new(rt.alloc(), 300, own_rows(), &mut meter)?;
    let uid = Owner::Uid(500);
    assert!(rt; registry.set(row(200_001, 1, Netid::Tcp, uid), &mut meter));
    assert!(rt; !registry.unset(200_001, 1, Which::Inet, Owner::Unknown, &mut meter));
    assert!(rt; !registry.unset(100_000, 2, Which::All, Owner::SUPERUSER, &mut meter));
    assert!(rt; registry.unset(200_001, 1, Which::One(Netid::Tcp), uid, &mut meter));
    assert_eq!(rt; registry.stamp(), 2);
    assert_eq!(rt; registry.len(&mut meter), 6);
    Ok(())
}

// A digit for each row of the version, in the order in which the index leads to them: 1 of tcp, 2 of udp, 3 of tcp6, 4
// of udp6 and 5 of local.
fn netids_of(registry: &Registry, prog: u32, vers: u32, meter: &mut Meter) -> u64 {
    let mut digits: u64 = 0;
    let version = registry.version(prog, vers, meter);
    let mut cursor = Cursor::start();
    'rows: while let Some((next, listed)) = registry.next_of(&version, cursor, meter) {
        let digit = match listed.as_row().netid {
            Netid::Tcp => 1,
            Netid::Udp => 2,
            Netid::Tcp6 => 3,
            Netid::Udp6 => 4,
            Netid::Local => 5,
        };
        digits = digits.wrapping_mul(10).wrapping_add(digit);
        cursor = next;
    }
    digits
}

// LOOKUP-4: The rows of one version come in the order in which they were set, whatever was set between, and a row that
// was removed and set again comes last.
#[test]
fn versions_come_in_the_order_of_their_sets(rt: HostRuntime) -> Result<(), Fail> {
    let mut meter = Meter::new();
    let mut registry = Registry::new(rt.alloc(), 400, own_rows(), &mut meter)?;
    let uid = Owner::Uid(500);
    assert!(rt; registry.set(row(200_001, 1, Netid::Udp6, uid), &mut meter));
    assert!(rt; registry.set(row(200_001, 1, Netid::Tcp, uid), &mut meter));
    assert!(rt; registry.set(row(200_001, 2, Netid::Local, uid), &mut meter));
    'others: for prog in 300_000..300_247 {
        assert!(rt; registry.set(row(prog, 1, Netid::Tcp, uid), &mut meter));
    }
    assert!(rt; registry.set(row(200_001, 1, Netid::Local, uid), &mut meter));
    assert!(rt; registry.set(row(200_001, 1, Netid::Udp, uid), &mut meter));
    assert_eq!(rt; netids_of(&registry, 200_001, 1, &mut meter), 4152);
    assert_eq!(rt; netids_of(&registry, 200_001, 2, &mut meter), 5);
    assert_eq!(rt; netids_of(&registry, 200_001, 3, &mut meter), 0);
    assert_eq!(rt; netids_of(&registry, 100_000, 3, &mut meter), 12);
    assert!(rt; registry.unset(200_001, 1, Which::One(Netid::Udp6), uid, &mut meter));
    registry.trim(None, &mut meter);
    assert!(rt; registry.set(row(200_001, 1, Netid::Udp6, uid), &mut meter));
    assert_eq!(rt; netids_of(&registry, 200_001, 1, &mut meter), 1524);
    assert_eq!(rt; registry.len(&mut meter), 258);
    assert!(rt; registry.is_long(&mut meter));
    Ok(())
}
