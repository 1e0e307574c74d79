//! A system in which things fail: accepts of a listener, and descriptors that are used up.
use crate::client::Client;
use crate::records::answers_a_call;
use crate::tables::Tables;
use crate::turns::{HERE, Host, Stopped, everywhere, plain};
use rb_daemon::{DaemonFault, Rate, Settings, Step};
use std::io;
use std::net::{Ipv4Addr, Net, SocketAddr, TcpListener, UdpSocket};
use std::os::fd::OwnedFd;
use std::random::RandomSource;
use std::test::Fail;

/// Where the local socket of a crossed system listens.
const CROSSED: u16 = 20_120;

/// A system whose local sockets are TCP sockets: each accept fails, since the peer has no address of its kind. It has no
/// randomness.
fn crossed(rt: &HostRuntime) -> Tables {
    let mut system = Tables::new(rt);
    system.has_local = false;
    system
}

impl Net for Tables {
    type Stream = <HostRuntime as Net>::Stream;

    type Listener = <HostRuntime as Net>::Listener;

    fn bind(&self, addr: SocketAddr) -> io::Result<Self::Listener> {
        self.rt.bind(addr)
    }

    fn connect(&self, addr: SocketAddr) -> io::Result<Self::Stream> {
        self.rt.connect(addr)
    }

    fn bind_udp(&self, addr: SocketAddr) -> io::Result<UdpSocket> {
        self.rt.bind_udp(addr)
    }

    fn unix_socket(&self) -> io::Result<OwnedFd> {
        let at = SocketAddr::from((Ipv4Addr::LOCALHOST, CROSSED));
        Ok(OwnedFd::from(TcpListener::bind(&self.rt, at)?))
    }
}

impl RandomSource for Tables {
    fn fill_bytes(&self, _buf: &mut [u8]) -> io::Result<()> {
        Err(io::Error::from(io::ErrorKind::Unsupported))
    }
}

/// Who comes on the listener that fails is closed, and others are served meanwhile. The fault is told once.
fn serves_beside_a_fault(rt: &HostRuntime, host: &mut Host<'_>) -> Option<bool> {
    let at = SocketAddr::from((Ipv4Addr::LOCALHOST, CROSSED));
    let mut first = Client::at(rt, at)?;
    let mut second = Client::at(rt, at)?;
    let is_served = answers_a_call(rt, host, 31)?;
    first.receive(host, 1);
    second.receive(host, 1);
    let are_closed = first.is_closed() && second.is_closed();
    let is_told = host.take_fault()?.step == Step::Accept;
    let mut third = Client::at(rt, at)?;
    third.receive(host, 1);
    let is_told_once = third.is_closed() && host.take_fault().is_none();
    Some(is_served && are_closed && is_told && is_told_once && host.is_well())
}

// ACCEPT-1 LISTENER-1
#[test]
fn failing_listener_ends_nothing(rt: HostRuntime) -> Result<(), Fail> {
    let clock = Stopped::new(&rt);
    let system = crossed(&rt);
    let settings = Settings {
        loopback6: false,
        ..everywhere(&HERE, 4)
    };
    let mut host = Host::over(&clock, &system, &settings).map_err(|_| "no daemon")?;
    assert_eq!(rt; serves_beside_a_fault(&rt, &mut host), Some(true));
    Ok(())
}

// BRAKE-4: without randomness nothing goes by a key
#[test]
fn brake_needs_randomness(rt: HostRuntime) {
    let clock = Stopped::new(&rt);
    let system = crossed(&rt);
    let settings = Settings {
        udp_rate: Some(Rate {
            network: 2,
            host: 1,
        }),
        ..plain(&HERE, 2)
    };
    let made = Host::over(&clock, &system, &settings);
    assert!(rt; matches!(made, Err(DaemonFault::Socket(fault)) if fault.step == Step::Random));
}

/// There is a place for one: it is given up for the next, who is served.
fn serves_one_after_another(rt: &HostRuntime, host: &mut Host<'_>) -> Option<bool> {
    let is_first = answers_a_call(rt, host, 32)?;
    let mut waiting = Client::new(rt)?;
    let is_open = waiting.receive_nothing(host);
    let is_next = answers_a_call(rt, host, 33)?;
    waiting.receive(host, 1);
    Some(is_first && is_open && is_next && waiting.is_closed() && host.is_well())
}

// PLACES-1 START-2
#[test]
fn few_descriptors_are_few_places(rt: HostRuntime) -> Result<(), Fail> {
    let clock = Stopped::new(&rt);
    let settings = Settings {
        open_files: 4,
        ..plain(&HERE, 3)
    };
    let mut host = Host::with(&clock, &settings).map_err(|_| "no daemon")?;
    let shortage = host.shortage().ok_or("no shortage")?;
    assert_eq!(rt;
        (shortage.limit, shortage.asked, shortage.places),
        (4, 3, 1)
    );
    assert_eq!(rt; serves_one_after_another(&rt, &mut host), Some(true));
    Ok(())
}

#[test]
fn enough_descriptors_are_all_places(rt: HostRuntime) -> Result<(), Fail> {
    let clock = Stopped::new(&rt);
    let host = Host::new(&clock, 3).ok_or("no daemon")?;
    assert!(rt; host.shortage().is_none());
    Ok(())
}
