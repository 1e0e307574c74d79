use rb_uaddr::{AddressText, Hosts, NotAnAddress, Uaddr};
use std::test::Fail;

// 2001:db8::9, of the documentation (RFC 3849)
const OF_IPV6: [u8; 16] = [0x20, 0x01, 0x0d, 0xb8, 0, 0, 0, 0, 0, 0, 0, 0, 0, 0, 0, 9];

const TOLD: Hosts = Hosts {
    inet: [192, 0, 2, 1],
    inet6: OF_IPV6,
};

#[test]
fn any_host_is_merged(rt: HostRuntime) -> Result<(), Fail> {
    let address = Uaddr::parse(b"0.0.0.0.8.1")?;
    assert_eq!(rt; address, Uaddr::any(2049));
    let merged = address.merge(&TOLD);
    assert_eq!(rt; merged.text().as_slice(), b"192.0.2.1.8.1".as_slice());
    let others = Hosts {
        inet: [198, 51, 100, 7],
        inet6: [7; 16],
    };
    assert_eq!(rt; merged.merge(&others), merged);
    assert_eq!(rt; merged.port(), 2049);
    Ok(())
}

#[test]
fn any_ipv6_host_is_merged(rt: HostRuntime) -> Result<(), Fail> {
    let address = Uaddr::parse(b"::.8.1")?;
    assert_eq!(rt; address, Uaddr::any6(2049));
    let merged = address.merge(&TOLD);
    assert_eq!(rt; merged.text().as_slice(), b"2001:db8::9.8.1".as_slice());
    assert_eq!(rt; TOLD.merge_inet([0; 4]), [192, 0, 2, 1]);
    assert_eq!(rt; TOLD.merge_inet([198, 51, 100, 7]), [198, 51, 100, 7]);
    assert_eq!(rt; TOLD.merge_inet6([0; 16]), OF_IPV6);
    assert_eq!(rt; TOLD.merge_inet6([7; 16]), [7; 16]);
    Ok(())
}

// 0.0.0.0 and :: stand in for themselves.
#[test]
fn every_host_stays(rt: HostRuntime) {
    let every = Hosts {
        inet: [0; 4],
        inet6: [0; 16],
    };
    assert_eq!(rt; Uaddr::any(2049).merge(&every), Uaddr::any(2049));
    assert_eq!(rt; Uaddr::any6(2049).merge(&every), Uaddr::any6(2049));
}

#[test]
fn other_texts_are_refused(rt: HostRuntime) -> Result<(), Fail> {
    let texts = [
        b"".as_slice(),
        b"1.2.3.4.5".as_slice(),
        b"1.2.3.4.5.6.7".as_slice(),
        b"1.2.3.4.256.0".as_slice(),
        b"01.2.3.4.5.6".as_slice(),
        b"1.2.3.4.5.+6".as_slice(),
        b"1.2.3.4.5.\xff".as_slice(),
        b"1.2.3.4.5.6 ".as_slice(),
    ];
    for text in texts {
        assert_eq!(rt; Uaddr::parse(text), Err(NotAnAddress), "{text:?}");
    }
    assert_eq!(rt;
        format!(in rt.alloc(); "{NotAnAddress}")?.as_str(),
        "not a universal address"
    );
    Ok(())
}

// UADDR-4
#[test]
fn texts_are_kept(rt: HostRuntime) -> Result<(), Fail> {
    let text = AddressText::new(b"192.0.2.1.8.1");
    assert_eq!(rt; text.as_slice(), b"192.0.2.1.8.1".as_slice());
    assert_eq!(rt; text.ipv4(), Some(Uaddr::V4([192, 0, 2, 1], 2049)));
    assert_eq!(rt; text.ipv6(), None);
    assert_eq!(rt; text, text.clone()?);
    assert!(rt; text != Uaddr::any(2049).text());

    let given = AddressText::new(b"2001:DB8:0:0:1:0:0:1.8.1");
    assert_eq!(rt; given.as_slice(), b"2001:DB8:0:0:1:0:0:1.8.1".as_slice());
    assert_eq!(rt; given.ipv4(), None);
    assert_eq!(rt; given.ipv6(), Uaddr::parse(b"2001:db8::1:0:0:1.8.1").ok());

    let socket = AddressText::new(b"/run/x");
    assert!(rt; socket.is_local() && socket.ipv4().is_none() && socket.ipv6().is_none());
    assert!(rt; AddressText::new(&[b'x'; 128]).is_local());
    assert!(rt; !AddressText::new(b"").is_local());
    assert!(rt; !AddressText::new(b"/run\0x").is_local());
    Ok(())
}

/// A host as it may be given, as RFC 5952 prints it, and its groups.
pub(crate) struct Host {
    pub(crate) given: &'static [u8],
    pub(crate) printed: &'static [u8],
    pub(crate) groups: [u16; 8],
}

/// The examples of RFC 4291 section 2.2 and of RFC 5952 sections 2 and 4.
pub(crate) const HOSTS: [Host; 16] = [
    Host {
        given: b"ABCD:EF01:2345:6789:ABCD:EF01:2345:6789",
        printed: b"abcd:ef01:2345:6789:abcd:ef01:2345:6789",
        groups: [
            0xabcd, 0xef01, 0x2345, 0x6789, 0xabcd, 0xef01, 0x2345, 0x6789,
        ],
    },
    Host {
        given: b"2001:DB8:0:0:8:800:200C:417A",
        printed: b"2001:db8::8:800:200c:417a",
        groups: [0x2001, 0xdb8, 0, 0, 8, 0x800, 0x200c, 0x417a],
    },
    Host {
        given: b"FF01:0:0:0:0:0:0:101",
        printed: b"ff01::101",
        groups: [0xff01, 0, 0, 0, 0, 0, 0, 0x101],
    },
    Host {
        given: b"0:0:0:0:0:0:0:1",
        printed: b"::1",
        groups: [0, 0, 0, 0, 0, 0, 0, 1],
    },
    Host {
        given: b"0:0:0:0:0:0:0:0",
        printed: b"::",
        groups: [0; 8],
    },
    Host {
        given: b"2001:db8:0:0:1:0:0:1",
        printed: b"2001:db8::1:0:0:1",
        groups: [0x2001, 0xdb8, 0, 0, 1, 0, 0, 1],
    },
    Host {
        given: b"2001:0db8:0:0:1:0:0:1",
        printed: b"2001:db8::1:0:0:1",
        groups: [0x2001, 0xdb8, 0, 0, 1, 0, 0, 1],
    },
    Host {
        given: b"2001:db8::0:1:0:0:1",
        printed: b"2001:db8::1:0:0:1",
        groups: [0x2001, 0xdb8, 0, 0, 1, 0, 0, 1],
    },
    Host {
        given: b"2001:db8:0:0:1::1",
        printed: b"2001:db8::1:0:0:1",
        groups: [0x2001, 0xdb8, 0, 0, 1, 0, 0, 1],
    },
    Host {
        given: b"2001:DB8:0:0:1::1",
        printed: b"2001:db8::1:0:0:1",
        groups: [0x2001, 0xdb8, 0, 0, 1, 0, 0, 1],
    },
    Host {
        given: b"2001:db8:aaaa:bbbb:cccc:dddd:eeee:0001",
        printed: b"2001:db8:aaaa:bbbb:cccc:dddd:eeee:1",
        groups: [0x2001, 0xdb8, 0xaaaa, 0xbbbb, 0xcccc, 0xdddd, 0xeeee, 1],
    },
    Host {
        given: b"2001:db8:aaaa:bbbb:cccc:dddd::1",
        printed: b"2001:db8:aaaa:bbbb:cccc:dddd:0:1",
        groups: [0x2001, 0xdb8, 0xaaaa, 0xbbbb, 0xcccc, 0xdddd, 0, 1],
    },
    Host {
        given: b"2001:db8:0:0:0:0:2:1",
        printed: b"2001:db8::2:1",
        groups: [0x2001, 0xdb8, 0, 0, 0, 0, 2, 1],
    },
    Host {
        given: b"2001:db8::1:1:1:1:1",
        printed: b"2001:db8:0:1:1:1:1:1",
        groups: [0x2001, 0xdb8, 0, 1, 1, 1, 1, 1],
    },
    Host {
        given: b"2001:0:0:1:0:0:0:1",
        printed: b"2001:0:0:1::1",
        groups: [0x2001, 0, 0, 1, 0, 0, 0, 1],
    },
    Host {
        given: b"2001:db8:85a3::8a2e:370:7334",
        printed: b"2001:db8:85a3::8a2e:370:7334",
        groups: [0x2001, 0xdb8, 0x85a3, 0, 0, 0x8a2e, 0x370, 0x7334],
    },
];

// The host's text, and the port 2049.
fn with_port(rt: HostRuntime, host: &[u8]) -> Result<Vec<u8>, Fail> {
    let mut text = Vec::new(rt.alloc());
    text.extend_from_slice(host)?;
    text.extend_from_slice(b".8.1")?;
    Ok(text)
}

// The transport form of a host's groups and the port 2049.
fn transport_form(groups: &[u16; 8]) -> [u8; 28] {
    let mut form = [0; 28];
    form[..4].copy_from_slice(&[10, 0, 8, 1]);
    for (place, group) in groups.iter().enumerate() {
        form[8 + 2 * place..10 + 2 * place].copy_from_slice(&group.to_be_bytes());
    }
    form
}

// UADDR-2 UADDR-3
#[test]
fn ipv6_hosts_are_printed(rt: HostRuntime) -> Result<(), Fail> {
    for host in &HOSTS {
        let address = Uaddr::parse(&with_port(rt, host.given)?)?;
        let printed = with_port(rt, host.printed)?;
        assert_eq!(rt; address.text().as_slice(), printed.as_slice());
        assert_eq!(rt; Uaddr::parse(&printed), Ok(address));
        if host.groups != [0; 8] {
            assert_eq!(rt; address.merge(&TOLD), address);
        }

        let mut form = transport_form(&host.groups);
        assert_eq!(rt; address.to_transport().as_slice(), form.as_slice());
        form[4] = 7;
        form[27] = 9;
        assert_eq!(rt; Uaddr::from_transport(&form), Ok(address));
    }
    Ok(())
}

#[test]
fn ipv6_forms_have_28_bytes(rt: HostRuntime) -> Result<(), Fail> {
    let mut short = [0; 27];
    short[0] = 10;
    assert_eq!(rt; Uaddr::from_transport(&short), Err(NotAnAddress));
    let mut form = [0; 28];
    form[0] = 10;
    assert_eq!(rt; Uaddr::from_transport(&form).is_ok(), true);
    Ok(())
}

// UADDR-2
// Those of RFC 4291 section 2.2 that end in an IPv4 address are hosts of `inet_pton`, and not of a universal address; so
// are the others of none.
#[test]
fn other_ipv6_hosts_are_refused(rt: HostRuntime) -> Result<(), Fail> {
    let hosts = [
        b"0:0:0:0:0:0:13.1.68.3".as_slice(),
        b"0:0:0:0:0:FFFF:129.144.52.38".as_slice(),
        b"::13.1.68.3".as_slice(),
        b"::FFFF:129.144.52.38".as_slice(),
        b"1::2::3".as_slice(),
        b":::1".as_slice(),
        b"1:2:3:4:5:6:7".as_slice(),
        b"1:2:3:4:5:6:7:8:9".as_slice(),
        b"1:2:3:4:5:6:7:8::".as_slice(),
        b":1:2:3:4:5:6:7:8".as_slice(),
        b"1:2:3:4:5:6:7:8:".as_slice(),
        b"12345::".as_slice(),
        b"fe80::1%lo".as_slice(),
        b"[::1]".as_slice(),
        b"::g".as_slice(),
    ];
    for host in hosts {
        assert_eq!(rt;
            Uaddr::parse(&with_port(rt, host)?),
            Err(NotAnAddress),
            "{host:?}"
        );
    }
    for text in [
        b"::1".as_slice(),
        b"::1.0.256".as_slice(),
        b"::1.0.01".as_slice(),
    ] {
        assert_eq!(rt; Uaddr::parse(text), Err(NotAnAddress), "{text:?}");
    }
    Ok(())
}

// TADDR-1
#[test]
fn addresses_have_transport_forms(rt: HostRuntime) -> Result<(), Fail> {
    let form = [2, 0, 0, 0x6f, 0x7f, 0, 0, 1, 0, 0, 0, 0, 0, 0, 0, 0];
    let address = Uaddr::parse(b"127.0.0.1.0.111")?;
    assert_eq!(rt; address.to_transport().as_slice(), form.as_slice());
    assert_eq!(rt;
        Uaddr::from_transport(&form)?.text().as_slice(),
        b"127.0.0.1.0.111".as_slice()
    );

    let padded = [2, 0, 0, 0x6f, 0x7f, 0, 0, 1, 1, 2, 3, 4, 5, 6, 7, 8];
    assert_eq!(rt; Uaddr::from_transport(&padded)?, address);
    let other_family = [10, 0, 0, 0x6f, 0x7f, 0, 0, 1, 0, 0, 0, 0, 0, 0, 0, 0];
    assert_eq!(rt; Uaddr::from_transport(&other_family), Err(NotAnAddress));
    let short = [2, 0, 0, 0x6f, 0x7f, 0, 0, 1, 0, 0, 0, 0, 0, 0, 0];
    assert_eq!(rt; Uaddr::from_transport(&short), Err(NotAnAddress));
    Ok(())
}
