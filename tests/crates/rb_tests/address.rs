use crate::uaddr::HOSTS;
use rb_address::{Family, Host, Netid, Owner, Peer, Source, Transport, Trust, Who};
use std::alloc::AllocError;
use std::net::{Ipv6Addr, SocketAddr};
use std::test::Fail;

// 2001:db8::1, of the documentation (RFC 3849)
const OCTETS: [u8; 16] = [0x20, 0x01, 0x0d, 0xb8, 0, 0, 0, 0, 0, 0, 0, 0, 0, 0, 0, 1];

const UNKNOWN: Host = Host::V4([0; 4]);

// A caller of whom nothing is known but what it says, and which host it asked is not known.
pub(crate) fn claims(host: [u8; 4], port: u16) -> Who {
    Who {
        source: Source::Inet(Peer::new(Host::V4(host), port)),
        asked: UNKNOWN,
        trust: Trust::Claims,
    }
}

#[test]
fn peers_are_shown(rt: HostRuntime) -> Result<(), Fail> {
    let peer = Peer::new(Host::V4([127, 0, 0, 1]), 900);
    assert_eq!(rt; format!(in rt.alloc(); "{peer}")?.as_str(), "127.0.0.1:900");
    let peer = Peer::new(Host::V6(OCTETS), 900);
    assert_eq!(rt;
        format!(in rt.alloc(); "{peer}")?.as_str(),
        "[2001:db8::1]:900"
    );
    Ok(())
}

#[test]
fn peers_are_read(rt: HostRuntime) -> Result<(), Fail> {
    let peer = Peer::read(b"[2001:db8::1]:900").ok_or("no peer")?;
    assert_eq!(rt; peer, Peer::new(Host::V6(OCTETS), 900));
    assert_eq!(rt; peer.family(), Family::Inet6);
    assert!(rt; Peer::read(b"[2001:db8:0:0:0:0:0:1]:900").is_none());
    Ok(())
}

/// A host of IPv6 by its groups, a port, and the host's text.
struct PeerText {
    groups: [u16; 8],
    port: u16,
    host: &'static str,
}

/// The texts are those of Python's module ipaddress, which prints hosts by RFC 5952.
const PEERS: [PeerText; 16] = [
    PeerText {
        groups: [0, 0, 0, 0, 0, 0, 0, 1],
        port: 900,
        host: "::1",
    },
    PeerText {
        groups: [0x2001, 0xdb8, 0, 0xa, 0xb, 0xc, 0xd, 0xe],
        port: 0,
        host: "2001:db8:0:a:b:c:d:e",
    },
    PeerText {
        groups: [0x2001, 0xdb8, 0, 0, 0xa, 0, 0, 0xb],
        port: 65535,
        host: "2001:db8::a:0:0:b",
    },
    PeerText {
        groups: [0xfe80, 0, 0, 1, 0, 0, 0, 0x2a],
        port: 111,
        host: "fe80:0:0:1::2a",
    },
    PeerText {
        groups: [0, 0, 0, 0x10, 0x200, 0x3000, 0, 0],
        port: 1,
        host: "::10:200:3000:0:0",
    },
    PeerText {
        groups: [0xff02, 0, 0, 0, 0, 0, 0, 0],
        port: 2049,
        host: "ff02::",
    },
    PeerText {
        groups: [0x64, 0xff9b, 0, 0, 0, 0, 0xc000, 0x201],
        port: 20048,
        host: "64:ff9b::c000:201",
    },
    PeerText {
        groups: [0, 0, 0, 0, 0, 0, 0xc000, 0x201],
        port: 80,
        host: "::c000:201",
    },
    PeerText {
        groups: [0, 0, 0, 0, 0xffff, 0, 0xc000, 0x201],
        port: 1023,
        host: "::ffff:0:c000:201",
    },
    PeerText {
        groups: [0, 0, 0, 0, 0, 0xfffe, 0xc000, 0x201],
        port: 1024,
        host: "::fffe:c000:201",
    },
    PeerText {
        groups: [
            0xffff, 0xffff, 0xffff, 0xffff, 0xffff, 0xffff, 0xffff, 0xffff,
        ],
        port: 9,
        host: "ffff:ffff:ffff:ffff:ffff:ffff:ffff:ffff",
    },
    PeerText {
        groups: [0xfd00, 0, 1, 0, 1, 0, 1, 0],
        port: 99,
        host: "fd00:0:1:0:1:0:1:0",
    },
    PeerText {
        groups: [1, 0, 0x3dc3, 1, 0, 1, 0xab, 0x9321],
        port: 22058,
        host: "1:0:3dc3:1:0:1:ab:9321",
    },
    PeerText {
        groups: [0x18d9, 0, 0xfff, 0xfff, 1, 0xd8c0, 0, 0xfff],
        port: 48766,
        host: "18d9:0:fff:fff:1:d8c0:0:fff",
    },
    PeerText {
        groups: [0xfff, 0, 0, 0, 0xab, 1, 0, 0xeed9],
        port: 15430,
        host: "fff::ab:1:0:eed9",
    },
    PeerText {
        groups: [0xfff, 0xab, 0xab, 0xab, 0, 0, 0xab, 0xab],
        port: 25647,
        host: "fff:ab:ab:ab::ab:ab",
    },
];

#[test]
fn ipv6_peers_are_shown_and_read(rt: HostRuntime) -> Result<(), Fail> {
    for PeerText { groups, port, host } in &PEERS {
        let ip = Ipv6Addr::from(*groups);
        let peer = Peer::of(SocketAddr::new(ip.into(), *port));
        let text = format!(in rt.alloc(); "[{host}]:{port}")?;
        assert_eq!(rt; format!(in rt.alloc(); "{peer}")?.as_str(), text.as_str());
        assert_eq!(rt; Peer::read(text.as_bytes()), Some(peer));
        let shown = format!(in rt.alloc(); "{}", peer.host())?;
        assert_eq!(rt; shown.as_str(), *host);
        assert_eq!(rt; Host::read(host.as_bytes()), Some(Host::V6(ip.octets())));
    }
    Ok(())
}

/// Hosts of the RFCs, in each spelling that these have for them.
#[test]
fn ipv6_hosts_are_read_in_any_spelling(rt: HostRuntime) -> Result<(), Fail> {
    for host in &HOSTS {
        let wanted = Host::V6(Ipv6Addr::from(host.groups).octets());
        assert_eq!(rt; Host::read(host.given), Some(wanted));
        let shown = format!(in rt.alloc(); "{wanted}")?;
        assert_eq!(rt; shown.as_bytes(), host.printed);
    }
    Ok(())
}

#[test]
fn ipv4_hosts_are_shown_and_read(rt: HostRuntime) -> Result<(), Fail> {
    let host = Host::read(b"192.0.2.9").ok_or("no host")?;
    assert_eq!(rt; host, Host::V4([192, 0, 2, 9]));
    assert_eq!(rt; format!(in rt.alloc(); "{host}")?.as_str(), "192.0.2.9");
    let others = [
        b"".as_slice(),
        b"192.0.2".as_slice(),
        b"192.0.2.9.1".as_slice(),
        b"192.0.2.256".as_slice(),
        b"192.0.2.9:900".as_slice(),
        b"localhost".as_slice(),
        b"fe80::1%lo".as_slice(),
        b"::ffff:192.0.2.9".as_slice(),
    ];
    for text in others {
        assert_eq!(rt; Host::read(text), None, "{text:?}");
    }
    Ok(())
}

#[test]
fn mapped_peers_are_of_ipv4(rt: HostRuntime) {
    let mapped = Ipv6Addr::new(0, 0, 0, 0, 0, 0xffff, 0xc000, 0x0201);
    let peer = Peer::of(SocketAddr::new(mapped.into(), 900));
    assert_eq!(rt; peer, Peer::new(Host::V4([192, 0, 2, 1]), 900));
}

#[test]
fn netids_have_names(rt: HostRuntime) {
    assert_eq!(rt; Netid::of(Transport::Udp, Family::Inet).text(), "udp");
    assert_eq!(rt; Netid::of(Transport::Tcp, Family::Inet6).text(), "tcp6");
}

fn ipv4() -> Source {
    Source::Inet(Peer::new(Host::V4([127, 0, 0, 1]), 900))
}

fn ipv6() -> Source {
    Source::Inet(Peer::new(Host::V6(OCTETS), 900))
}

// NETID-3
#[test]
fn sources_have_texts_and_netids(rt: HostRuntime) -> Result<(), Fail> {
    let source = ipv4();
    assert_eq!(rt;
        format!(in rt.alloc(); "{source}")?.as_str(),
        "127.0.0.1:900"
    );
    assert_eq!(rt; source.netid(Transport::Udp), Netid::Udp);
    let source = ipv6();
    assert_eq!(rt;
        format!(in rt.alloc(); "{source}")?.as_str(),
        "[2001:db8::1]:900"
    );
    assert_eq!(rt; source.netid(Transport::Tcp), Netid::Tcp6);
    let source = Source::Local;
    assert_eq!(rt; format!(in rt.alloc(); "{source}")?.as_str(), "local");
    assert_eq!(rt; source.netid(Transport::Tcp), Netid::Local);
    Ok(())
}

fn caller(source: Source, asked: Host, trust: Trust) -> Who {
    Who {
        source,
        asked,
        trust,
    }
}

fn uid(uid: u32) -> Trust {
    Trust::Local(Owner::Uid(uid))
}

const HERE: Host = Host::V4([127, 0, 0, 1]);

const NOBODY: Trust = Trust::Local(Owner::Unknown);

/// Each is shown as its text in event lines, and read as it.
fn are_shown_and_read(rt: &HostRuntime, callers: &[(&str, Who)]) -> Result<bool, AllocError> {
    for (text, who) in callers {
        let shown = format!(in rt.alloc(); "{who}")?;
        if shown.as_str() != *text || Who::read(text.as_bytes()) != Some(*who) {
            return Ok(false);
        }
    }
    Ok(true)
}

#[test]
fn ipv4_callers_are_shown_and_read(rt: HostRuntime) {
    let of_ipv6 = Host::V6(OCTETS);
    let callers = [
        ("127.0.0.1:900", claims([127, 0, 0, 1], 900)),
        (
            "127.0.0.1:900>127.0.0.1",
            caller(ipv4(), HERE, Trust::Claims),
        ),
        ("127.0.0.1:900/0", caller(ipv4(), UNKNOWN, uid(0))),
        (
            "127.0.0.1:900>127.0.0.1/4294967295",
            caller(ipv4(), HERE, uid(u32::MAX)),
        ),
        (
            "127.0.0.1:900>2001:db8::1/unknown",
            caller(ipv4(), of_ipv6, NOBODY),
        ),
    ];
    assert_eq!(rt; are_shown_and_read(&rt, &callers), Ok(true));
}

#[test]
fn ipv6_callers_are_shown_and_read(rt: HostRuntime) {
    let stranger = Trust::Stranger;
    let callers = [
        ("[2001:db8::1]:900", caller(ipv6(), UNKNOWN, Trust::Claims)),
        (
            "[2001:db8::1]:900>2001:db8::1",
            caller(ipv6(), Host::V6(OCTETS), Trust::Claims),
        ),
        (
            "[2001:db8::1]:900>::/stranger",
            caller(ipv6(), Host::V6([0; 16]), stranger),
        ),
        (
            "[2001:db8::1]:900/stranger",
            caller(ipv6(), UNKNOWN, stranger),
        ),
        (
            "[2001:db8::1]:900>127.0.0.1/65534",
            caller(ipv6(), HERE, uid(65_534)),
        ),
    ];
    assert_eq!(rt; are_shown_and_read(&rt, &callers), Ok(true));
}

#[test]
fn local_callers_are_shown_and_read(rt: HostRuntime) {
    let local = Source::Local;
    let callers = [
        ("local", caller(local, UNKNOWN, Trust::Claims)),
        ("local/0", caller(local, UNKNOWN, uid(0))),
        ("local/unknown", caller(local, UNKNOWN, NOBODY)),
        (
            "local>127.0.0.1/stranger",
            caller(local, HERE, Trust::Stranger),
        ),
    ];
    assert_eq!(rt; are_shown_and_read(&rt, &callers), Ok(true));
}

#[test]
fn other_texts_are_no_callers(rt: HostRuntime) {
    let others = [
        "127.0.0.1",
        "127.0.0.1/0",
        ">127.0.0.1",
        "/0",
        "127.0.0.1:900/+1",
        "127.0.0.1:900/-1",
        "127.0.0.1:900/ 0",
        "127.0.0.1:900//0",
        "127.0.0.1:900/nobody",
        "127.0.0.1:900>127.0.0.01",
        "127.0.0.1:900>local",
        "127.0.0.1:900>127.0.0.1:111",
        "[2001:db8::1]:900>2001:DB8::1",
        "[2001:db8::1]:900>::0",
        "[2001:db8::1]>::",
        "Local",
        "local ",
        "local/Unknown",
    ];
    for text in others {
        assert_eq!(rt; Who::read(text.as_bytes()), None, "{text}");
    }
}
