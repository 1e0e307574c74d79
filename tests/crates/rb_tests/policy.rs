//! Whom the daemon believes, row by row; which hosts it serves, announces and is asked at; how long it waits; what waits
//! until it is known whose it is, and when the kernel's tables are read.
use crate::evidence::{AT_31112, table_at, walked};
use rb_address::{Family, Host, Owner, Peer, Source, Trust, Who};
use rb_policy::{
    Beliefs, Brake, Entrance, Evidence, PlaceKey, Rate, SeenFile, Share, WaysBack, address_of,
    announced_inet, announced_inet6, binds_every_inet, binds_loopback6, entrance_now, evidence_of,
    forwards_inet, forwards_inet6, has_every_host, has_every_inet, ip_of, is_no_address, is_shown,
    lets_in_root_alone, looks_in, may_change, next_try, sender, sight_in, trust_of, unmapped_uid,
    wait_of,
};
use std::net::{IpAddr, Ipv4Addr, Ipv6Addr, SocketAddr};
use std::test::Fail;

const INET: Host = Host::V4([127, 0, 0, 1]);

const ANY: Host = Host::V4([0; 4]);

const ANY6: Host = Host::V6([0; 16]);

const LOOPBACK6: [u8; 16] = [0, 0, 0, 0, 0, 0, 0, 0, 0, 0, 0, 0, 0, 0, 0, 1];

const INET6: Host = Host::V6(LOOPBACK6);

// 192.0.2.1 and 2001:db8::1, of the documentation (RFC 5737, RFC 3849)
const OCTETS: [u8; 4] = [192, 0, 2, 1];

const OCTETS6: [u8; 16] = [0x20, 0x01, 0x0d, 0xb8, 0, 0, 0, 0, 0, 0, 0, 0, 0, 0, 0, 1];

const ELSEWHERE: Host = Host::V4(OCTETS);

const ELSEWHERE6: Host = Host::V6(OCTETS6);

fn at(host: Host) -> Peer {
    Peer::new(host, 900)
}

// 127.0.0.5, from which a neighbour's datagrams come with route_localnet
const NEAR: Host = Host::V4([127, 0, 0, 5]);

/// Each row of the table: where a caller comes in and what is shown of it there, and how far it is trusted.
fn table_of_trust() -> [(Entrance, Trust); 18] {
    let nobody = Trust::Local(Owner::Unknown);
    let stranger = Trust::Stranger;
    [
        (Entrance::RootSocket, Trust::Local(Owner::Uid(0))),
        (Entrance::OpenSocket, nobody),
        (
            Entrance::Tcp(at(INET), Evidence::Found(65_534)),
            Trust::Local(Owner::Uid(65_534)),
        ),
        (
            Entrance::Tcp(at(INET6), Evidence::Found(0)),
            Trust::Local(Owner::Uid(0)),
        ),
        (Entrance::Tcp(at(NEAR), Evidence::NotFound), nobody),
        (Entrance::Tcp(at(INET6), Evidence::Unread), stranger),
        (Entrance::Tcp(at(ELSEWHERE), Evidence::Found(0)), stranger),
        (Entrance::Tcp(at(ELSEWHERE6), Evidence::NotFound), stranger),
        (Entrance::Udp(INET, at(INET)), nobody),
        (Entrance::Udp(INET6, at(INET6)), nobody),
        (Entrance::Udp(INET, at(NEAR)), stranger),
        (Entrance::Udp(NEAR, at(NEAR)), stranger),
        (Entrance::Udp(ANY, at(INET)), stranger),
        (Entrance::Udp(ANY6, at(INET)), stranger),
        (Entrance::Udp(ANY6, at(INET6)), stranger),
        (Entrance::Udp(ELSEWHERE6, at(INET)), stranger),
        (Entrance::Udp(ELSEWHERE, at(ELSEWHERE)), stranger),
        (Entrance::Udp(INET, at(ELSEWHERE)), stranger),
    ]
}

// In no user namespace, and in one that maps some users.
const PLAIN: Beliefs = Beliefs {
    claims: false,
    unmapped: None,
};

const MAPPED: Beliefs = Beliefs {
    claims: false,
    unmapped: Some(65_534),
};

const CLAIMS: Beliefs = Beliefs {
    claims: true,
    unmapped: None,
};

// TRUST-6 TRUST-8 TRUST-9
#[test]
fn callers_are_trusted(rt: HostRuntime) {
    for (entrance, trust) in table_of_trust() {
        assert_eq!(rt; trust_of(PLAIN, entrance), trust, "{entrance:?}");
        assert_eq!(rt; trust_of(CLAIMS, entrance), Trust::Claims);
    }
}

// TRUST-11
/// Whom the namespace does not map is nobody known, and each other user is itself.
#[test]
fn users_of_other_namespaces_are_nobody(rt: HostRuntime) {
    let unmapped = Entrance::Tcp(at(INET), Evidence::Found(65_534));
    assert_eq!(rt; trust_of(MAPPED, unmapped), Trust::Local(Owner::Unknown));
    let mapped = Entrance::Tcp(at(INET), Evidence::Found(0));
    assert_eq!(rt; trust_of(MAPPED, mapped), Trust::Local(Owner::Uid(0)));
}

// TRUST-13
/// Maps as Linux 6.18 shows them: of the first namespace, and of one that `unshare -r` made.
#[test]
fn namespaces_map_users(rt: HostRuntime) {
    let all = b"         0          0 4294967295\n";
    let root = b"         0       1000          1\n";
    assert_eq!(rt; unmapped_uid(Some(all), Some(b"65534\n")), None);
    assert_eq!(rt; unmapped_uid(Some(all), None), None);
    assert_eq!(rt; unmapped_uid(Some(root), Some(b"99\n")), Some(99));
    assert_eq!(rt; unmapped_uid(Some(root), Some(b"99")), Some(65_534));
    assert_eq!(rt; unmapped_uid(Some(root), None), Some(65_534));
    assert_eq!(rt; unmapped_uid(None, Some(b"65534\n")), Some(65_534));
}

// TRUST-12
/// The socket is root's as long as its file is the same, of the same user, and no others may write to it; never again after
/// that.
#[test]
fn local_socket_stays_roots(rt: HostRuntime) {
    let made = SeenFile {
        device: 7,
        inode: 40,
        uid: 0,
        mode: 0o140_755,
    };
    let closed = SeenFile {
        mode: 0o140_600,
        ..made
    };
    let opened = SeenFile {
        mode: 0o140_666,
        ..made
    };
    let another = SeenFile { inode: 41, ..made };
    let elsewhere = SeenFile { device: 8, ..made };
    let given = SeenFile { uid: 1000, ..made };
    let is_roots = |found| {
        let now = entrance_now(Entrance::RootSocket, made, found);
        matches!(now, Entrance::RootSocket)
    };
    assert!(rt; is_roots(Some(made)) && is_roots(Some(closed)));
    assert!(rt; !is_roots(Some(opened)) && !is_roots(None) && !is_roots(Some(another)));
    assert!(rt; !is_roots(Some(elsewhere)) && !is_roots(Some(given)));
    let again = entrance_now(Entrance::OpenSocket, made, Some(made));
    assert!(rt; matches!(again, Entrance::OpenSocket));
}

#[test]
fn abstract_name_is_tried_again(rt: HostRuntime) {
    assert_eq!(rt; next_try(5_000), 15_000);
    assert_eq!(rt; next_try(u64::MAX), u64::MAX);
}

// Who may write to a socket's file may connect (unix(7)).
#[test]
fn modes_let_in_root_alone(rt: HostRuntime) {
    for mode in [0o600, 0o200, 0o644, 0o755] {
        assert!(rt; lets_in_root_alone(mode), "{mode:o}");
    }
    for mode in [0o666, 0o660, 0o602, 0o620, 0o777] {
        assert!(rt; !lets_in_root_alone(mode), "{mode:o}");
    }
}

// TABLES-1
#[test]
fn tables_are_looked_at(rt: HostRuntime) {
    assert!(rt; is_shown(false, at(INET)) && is_shown(false, at(INET6)));
    assert!(rt; !is_shown(false, at(ELSEWHERE)) && !is_shown(true, at(INET)));
    for found in [Evidence::Found(0), Evidence::Unread] {
        assert!(rt; !looks_in(Family::Inet6, Family::Inet, found));
    }
    let nothing = Evidence::NotFound;
    assert!(rt; looks_in(Family::Inet, Family::Inet, nothing));
    assert!(rt; !looks_in(Family::Inet, Family::Inet6, nothing));
    assert!(rt; looks_in(Family::Inet6, Family::Inet, nothing));
    assert!(rt; looks_in(Family::Inet6, Family::Inet6, nothing));
}

// TABLES-2
/// What the kernel showed of two clients at 127.0.0.1, of uid 65534 and closed; a walk that does not come to the end of its
/// table shows nothing.
#[test]
fn tables_are_evidence(rt: HostRuntime) -> Result<(), Fail> {
    let text = table_at(rt.alloc(), &AT_31112)?;
    let ours = Peer::new(INET, AT_31112.port);
    let [first, second, ..] = AT_31112.clients;
    let first = Peer::new(INET, first);
    let second = Peer::new(INET, second);
    for (table, theirs, shown) in [
        (Family::Inet, first, Evidence::Found(65_534)),
        (Family::Inet, second, Evidence::NotFound),
        (Family::Inet6, first, Evidence::NotFound),
    ] {
        let sight = walked(rt.alloc(), &text, 4096, sight_in(table, &theirs, &ours)).ok_or(
            "no walk",
        )?;
        assert_eq!(rt; evidence_of(true, &sight), shown);
        assert_eq!(rt; evidence_of(false, &sight), Evidence::Unread);
    }
    Ok(())
}

/// The first seven words of a record that is a call: its mark, and the head up to the procedure.
fn front_of(program: u32, procedure: u32) -> [u8; 28] {
    let mut front = [0; 28];
    let words = [0x8000_0028, 7, 0, 2, program, 4, procedure];
    for (place, word) in front.chunks_mut(4).zip(words) {
        place.copy_from_slice(&word.to_be_bytes());
    }
    front
}

#[test]
fn changes_wait_and_look_ups_do_not(rt: HostRuntime) {
    for procedure in [1, 2, 5, 10] {
        assert!(rt; may_change(&front_of(100_000, procedure)), "{procedure}");
        assert!(rt; !may_change(&front_of(100_003, procedure)), "{procedure}");
    }
    for procedure in [0, 3, 4, 6, 7, 8, 9, 11, 12] {
        let front = front_of(100_000, procedure);
        assert!(rt; !may_change(&front), "{procedure}");
        assert!(rt; may_change(&front[..27]), "{procedure}");
    }
    assert!(rt; may_change(b""));
}

// SHARE-1
/// After a turn of 4 ms that read a slice, other work goes first for 12.
#[test]
fn slices_leave_time(rt: HostRuntime) {
    let mut share = Share::new();
    assert!(rt; share.reads(1000, false));
    share.begin_turn(1004);
    assert!(rt; !share.reads(1015, false));
    share.begin_turn(1015);
    assert!(rt; share.reads(1016, false));
    share.begin_turn(1020);
    assert!(rt; share.reads(1021, true));
}

// WAIT-2
/// Until the next thing is due, and no longer than a turn may wait.
#[test]
fn turns_wait(rt: HostRuntime) {
    assert_eq!(rt; wait_of(true, 1000, Some(1005), None), Some(0));
    assert_eq!(rt; wait_of(false, 1000, Some(1005), None), Some(5));
    assert_eq!(rt; wait_of(false, 1000, Some(999), None), Some(0));
    assert_eq!(rt; wait_of(false, 1000, Some(1005), Some(3)), Some(3));
    assert_eq!(rt; wait_of(false, 1000, Some(1005), Some(7)), Some(5));
    assert_eq!(rt; wait_of(false, 1000, None, Some(3)), Some(3));
    assert_eq!(rt; wait_of(false, 1000, None, None), None);
}

// BIND-1 BIND-2 BIND-4
#[test]
fn every_host_has_both_families(rt: HostRuntime) {
    let every = [ELSEWHERE, ANY6];
    assert!(rt; has_every_host(&every) && !has_every_host(&[ANY, ELSEWHERE6]));
    assert!(rt; binds_every_inet(&every) && !binds_every_inet(&[ANY, ANY6]));
    assert!(rt; !binds_every_inet(&[ANY, ELSEWHERE6]));
    assert!(rt; has_every_inet(&every) && has_every_inet(&[ANY]) && !has_every_inet(&[INET]));
    assert!(rt; binds_loopback6(&[INET], true) && !binds_loopback6(&[INET], false));
    assert!(rt; !binds_loopback6(&every, true) && !binds_loopback6(&[INET6], true));
}

// ANNOUNCE-1
#[test]
fn hosts_are_announced(rt: HostRuntime) {
    let hosts = [ELSEWHERE6, ELSEWHERE, INET];
    assert_eq!(rt; announced_inet(None, &hosts), Some(OCTETS));
    assert_eq!(rt;
        announced_inet(Some([10, 0, 0, 1]), &hosts),
        Some([10, 0, 0, 1])
    );
    assert_eq!(rt; announced_inet(Some(OCTETS), &[ELSEWHERE6]), None);
    assert_eq!(rt; announced_inet(None, &[ANY6]), Some([0; 4]));
    assert_eq!(rt; announced_inet6(None, &hosts, true), Some(OCTETS6));
    assert_eq!(rt;
        announced_inet6(Some([7; 16]), &hosts, false),
        Some([7; 16])
    );
    assert_eq!(rt; announced_inet6(None, &[INET], true), Some(LOOPBACK6));
    assert_eq!(rt; announced_inet6(Some(OCTETS6), &[INET], false), None);
    assert!(rt; is_no_address(ANY) && is_no_address(ANY6));
    assert!(rt; !is_no_address(ELSEWHERE) && !is_no_address(INET6));
}

// BIND-3
#[test]
fn calls_are_forwarded_from_hosts(rt: HostRuntime) {
    let hosts = [ELSEWHERE6, ELSEWHERE, INET];
    assert_eq!(rt; forwards_inet(&hosts, 1), Some(ELSEWHERE));
    assert_eq!(rt; forwards_inet(&[ELSEWHERE6], 1), Some(INET));
    assert_eq!(rt; forwards_inet(&[ANY6], 1), Some(ANY));
    assert_eq!(rt; forwards_inet(&hosts, 0), None);
    assert_eq!(rt; forwards_inet6(&hosts, false, 1), Some(ELSEWHERE6));
    assert_eq!(rt; forwards_inet6(&[INET], true, 1), Some(INET6));
    assert_eq!(rt; forwards_inet6(&[INET], false, 1), None);
    assert_eq!(rt; forwards_inet6(&hosts, false, 0), None);
}

// WAYBACK-1
/// Each call's end goes back to the socket on which it came, once; there is room for two.
#[test]
fn ends_go_back(rt: HostRuntime) -> Result<(), Fail> {
    let mut ways = WaysBack::new(rt.alloc(), 2)?;
    assert_eq!(rt; ways.take(7), None);
    ways.note(7, 1);
    ways.note(9, 0);
    ways.note(8, 3);
    assert_eq!(rt; ways.take(8), None);
    assert_eq!(rt; ways.take(9), Some(0));
    assert_eq!(rt; ways.take(9), None);
    ways.note(8, 3);
    assert_eq!(rt; ways.take(7), Some(1));
    assert_eq!(rt; ways.take(8), Some(3));
    Ok(())
}

// NOBODY-1
fn socket_at(host: Host, port: u16) -> SocketAddr {
    SocketAddr::new(ip_of(host), port)
}

#[test]
fn peers_are_somebody(rt: HostRuntime) {
    for host in [INET, INET6, ELSEWHERE, ELSEWHERE6] {
        assert_eq!(rt; sender(socket_at(host, 900)), Some(at(host)));
        assert_eq!(rt; sender(socket_at(host, 0)), None);
    }
    for host in [ANY, ANY6, Host::V4([0, 0, 0, 7])] {
        assert_eq!(rt; sender(socket_at(host, 900)), None);
    }
}

/// Whoever sends from ::ffff:127.0.0.1 is not from 127.0.0.1.
#[test]
fn mapped_sources_are_nobody(rt: HostRuntime) {
    for host in [INET, ELSEWHERE] {
        assert_eq!(rt; sender(socket_at(host.mapped(), 900)), None);
    }
}

#[test]
fn peers_have_addresses(rt: HostRuntime) {
    let ipv4 = IpAddr::V4(Ipv4Addr::from(OCTETS));
    let ipv6 = IpAddr::V6(Ipv6Addr::from([0x2001, 0xdb8, 0, 0, 0, 0, 0, 1]));
    assert!(rt; ip_of(ELSEWHERE) == ipv4 && ip_of(ELSEWHERE6) == ipv6);
    assert!(rt; address_of(at(ELSEWHERE)) == SocketAddr::new(ipv4, 900));
    assert!(rt; address_of(at(ELSEWHERE6)) == SocketAddr::new(ipv6, 900));
}

// two for each network, and one for each host
const FEW: Rate = Rate {
    network: 2,
    host: 1,
};

// under it the hosts and networks below have places of their own
const KEY: PlaceKey = PlaceKey {
    point: 1_000_003,
    factor: 7_919,
};

// 192.0.N.M of the documentation's 192.0.2.0/24, or of the network beside it
fn host_in(third: u8, last: u8) -> Host {
    Host::V4([192, 0, third, last])
}

// BRAKE-1 BRAKE-2
/// What comes within a second of as many is dropped, and is not counted.
#[test]
fn datagrams_of_strangers_are_braked(rt: HostRuntime) -> Result<(), Fail> {
    let mut brake = Brake::new(rt.alloc(), KEY, FEW)?;
    let came = [
        (5000, host_in(2, 1), true),
        (5000, host_in(2, 1), false),
        (5200, host_in(2, 2), true),
        (5999, host_in(2, 3), false),
        (5999, host_in(3, 1), true),
        (6000, host_in(2, 1), true),
        (6000, host_in(2, 3), false),
        (6200, host_in(2, 3), true),
        // a moment before that is that
        (0, host_in(3, 2), true),
        (7199, host_in(3, 2), false),
        (7200, host_in(3, 2), true),
        (u64::MAX, ELSEWHERE6, true),
        (u64::MAX, ELSEWHERE6, false),
    ];
    for (now, host, is_served) in came {
        assert_eq!(rt; brake.admit(now, host), is_served, "{host} at {now}");
    }
    Ok(())
}

// BRAKE-1
/// Hosts whose first six bytes of sixteen are the same are of one network.
#[test]
fn networks_of_ipv6_are_braked(rt: HostRuntime) -> Result<(), Fail> {
    let mut brake = Brake::new(rt.alloc(), KEY, FEW)?;
    let mut served = 0u32;
    for last in 1..=9 {
        let mut octets = OCTETS6;
        octets[6] = last;
        octets[15] = last;
        if brake.admit(5000, Host::V6(octets)) {
            served += 1;
        }
    }
    assert_eq!(rt; served, 2);
    let mut octets = OCTETS6;
    octets[5] = 1;
    assert!(rt; brake.admit(5000, Host::V6(octets)));
    Ok(())
}

// BRAKE-3
/// Strangers alone are counted.
#[test]
fn others_are_not_braked(rt: HostRuntime) -> Result<(), Fail> {
    let mut brake = Brake::new(rt.alloc(), KEY, FEW)?;
    let stranger = Who {
        source: Source::Inet(at(ELSEWHERE)),
        asked: ANY,
        trust: Trust::Stranger,
    };
    let others = [Trust::Claims, Trust::Local(Owner::Unknown)];
    for trust in others {
        let who = Who { trust, ..stranger };
        assert!(rt; brake.passes(5000, &who) && brake.passes(5000, &who));
    }
    assert!(rt; brake.passes(5000, &stranger));
    assert!(rt; !brake.passes(5000, &stranger));
    Ok(())
}
