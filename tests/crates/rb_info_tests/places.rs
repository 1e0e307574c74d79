//! Where a question goes, of a portmapper that was found by a scope of IPv6, as fe80::1%eth0 is.
use rb_address::Transport;
use rb_plans::{Place, called_at};
use rb_uaddr::Uaddr;
use std::net::{Ipv4Addr, Ipv6Addr, SocketAddr, SocketAddrV6};
use std::test::Fail;

/// fe80::1 by the scope 3.
fn portmapper() -> SocketAddr {
    let host = Ipv6Addr::from([0xfe80, 0, 0, 0, 0, 0, 0, 1]);
    SocketAddr::V6(SocketAddrV6::new(host, 111, 0, 3))
}

/// The scope and the port of the address that a place is called at.
fn called(place: Place) -> Option<(u32, u16)> {
    match called_at(place, portmapper()) {
        (Transport::Tcp, SocketAddr::V6(address)) => Some((address.scope_id(), address.port())),
        _ => None,
    }
}

// COURSE-7
/// A port of the host, and an address of its link, are called by the scope by which the host was found.
#[test]
fn scope_stays(rt: HostRuntime) -> Result<(), Fail> {
    let link = Uaddr::parse(b"fe80::2.8.1")?;
    let own = Place::Port(Transport::Tcp, 2049);
    assert_eq!(rt; called(own), Some((3, 2049)));
    assert_eq!(rt;
        called(Place::Address(Transport::Tcp, link)),
        Some((3, 2049))
    );
    Ok(())
}

// COURSE-7
/// An address that is not of a link has no scope, nor has one of IPv4.
#[test]
fn other_addresses_have_none(rt: HostRuntime) -> Result<(), Fail> {
    let other = Uaddr::parse(b"2001:db8::2.8.1")?;
    let old = Uaddr::parse(b"192.0.2.7.8.1")?;
    assert_eq!(rt;
        called(Place::Address(Transport::Tcp, other)),
        Some((0, 2049))
    );
    let (_, address) = called_at(Place::Address(Transport::Tcp, old), portmapper());
    assert_eq!(rt;
        address == SocketAddr::from((Ipv4Addr::from([192, 0, 2, 7]), 2049)),
        true
    );
    Ok(())
}
