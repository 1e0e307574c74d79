//! The forms of rpcinfo that call procedure 0 of a program: their words are read, and what they ask for is asked of a
//! daemon by turns.
use crate::client::{Client, PORT, daemon_everywhere, portmapper, portmapper6};
use rb_plans::{Aim, Course, End};
use rb_show::Form;
use rb_words::{Flag, Plan, Service, Shape, read_services, read_words};
use std::net::SocketAddr;
use std::test::Fail;

/// What is shown of the versions of program 100000.
const EACH: &[u8] =
    b"program 100000 version 2 ready\nprogram 100000 version 3 ready\nprogram 100000 version 4 ready\n";

/// Words with the flags, without an option.
fn shape_of<'s, 'a>(flags: &'s [Flag], words: &'s [&'a str]) -> Shape<'s, 'a, 'static> {
    Shape {
        flags,
        port: None,
        uid: None,
        target: None,
        netid: None,
        address: None,
        local: None,
        broadcast: None,
        layouts: &[],
        words,
        services: &[],
    }
}

/// The course that words ask for, and the version that it begins with.
fn course_of(shape: &Shape<'_, '_, '_>) -> Option<(Course, Aim)> {
    let Plan::Ping(way, prog, vers) = read_words(shape).ok()?.plan else {
        return None;
    };
    let course = Course {
        way,
        prog,
        uid: None,
    };
    match vers {
        Some(vers) => Some((course, Aim::Only(vers))),
        None => Some((course, Aim::Least)),
    }
}

/// Whether the words end so that all is ready, and show this.
fn is_ready(
    rt: &HostRuntime,
    shape: &Shape<'_, '_, '_>,
    host: SocketAddr,
    text: &[u8],
) -> Option<bool> {
    let mut daemon = daemon_everywhere(rt)?;
    let (course, aim) = course_of(shape)?;
    let mut client = Client::new(rt, Form::Plain);
    let end = client.follow(&mut daemon, host, &course, aim)?;
    Some(matches!(end, End::Ready) && client.has_shown(text))
}

// COURSE-1
/// `-t HOST 100000`, and `-u`: GETPORT finds each of the versions that the refusal of version 0 names.
#[test]
fn each_version_by_getport(rt: HostRuntime) -> Result<(), Fail> {
    for flag in [Flag::Tcp, Flag::Udp] {
        let flags = [flag];
        let shape = shape_of(&flags, &["127.0.0.1", "100000"]);
        assert_eq!(rt; is_ready(&rt, &shape, portmapper(), EACH), Some(true));
    }
    Ok(())
}

/// `-n PORT -t HOST 100000 3`: no portmapper is asked.
#[test]
fn version_at_a_port(rt: HostRuntime) -> Result<(), Fail> {
    let shape = Shape {
        target: Some("20118"),
        ..shape_of(&[Flag::Tcp], &["127.0.0.1", "100000", "3"])
    };
    let text = b"program 100000 version 3 ready\n".as_slice();
    assert_eq!(rt; is_ready(&rt, &shape, portmapper(), text), Some(true));
    Ok(())
}

/// `-T NETID HOST 100000 [4]`: GETADDR finds it, over the transport of the netid.
#[test]
fn versions_by_getaddr(rt: HostRuntime) -> Result<(), Fail> {
    let text = b"program 100000 version 4 ready\n".as_slice();
    for netid in ["tcp", "udp"] {
        let one = Shape {
            netid: Some(netid),
            ..shape_of(&[], &["127.0.0.1", "100000", "4"])
        };
        let each = Shape {
            netid: Some(netid),
            ..shape_of(&[], &["127.0.0.1", "100000"])
        };
        assert_eq!(rt;
            is_ready(&rt, &one, portmapper(), text),
            Some(true),
            "{netid}"
        );
        assert_eq!(rt;
            is_ready(&rt, &each, portmapper(), EACH),
            Some(true),
            "{netid}"
        );
    }
    Ok(())
}

/// `-a 127.0.0.1.78.150 -T udp 100000` and with a version: no portmapper is asked.
#[test]
fn versions_at_an_address(rt: HostRuntime) -> Result<(), Fail> {
    let text = b"program 100000 version 2 ready\n".as_slice();
    let one = Shape {
        netid: Some("udp"),
        address: Some("127.0.0.1.78.150"),
        ..shape_of(&[], &["100000", "2"])
    };
    let each = Shape {
        words: &["100000"],
        ..one
    };
    assert_eq!(rt; is_ready(&rt, &one, portmapper(), text), Some(true));
    assert_eq!(rt; is_ready(&rt, &each, portmapper(), EACH), Some(true));
    Ok(())
}

/// The same at an address of IPv6, `-a ::1.78.150 -T tcp6 100000 4`.
#[test]
fn version_at_an_ipv6_address(rt: HostRuntime) -> Result<(), Fail> {
    let text = b"program 100000 version 4 ready\n".as_slice();
    let shape = Shape {
        netid: Some("tcp6"),
        address: Some("::1.78.150"),
        ..shape_of(&[], &["100000", "4"])
    };
    assert_eq!(rt; is_ready(&rt, &shape, portmapper(), text), Some(true));
    Ok(())
}

/// `-t ::1 100000 4`: GETPORT finds the port of tcp, which is served over IPv6 too.
#[test]
fn version_on_an_ipv6_host(rt: HostRuntime) -> Result<(), Fail> {
    let text = b"program 100000 version 4 ready\n".as_slice();
    let mapped = shape_of(&[Flag::Tcp], &["::1", "100000", "4"]);
    assert_eq!(rt; is_ready(&rt, &mapped, portmapper6(), text), Some(true));
    Ok(())
}

/// `-T NETID ::1 100000 4`: GETADDR goes by the netid of the call, and tells the host that it asked in place of ::.
#[test]
fn version_by_getaddr_on_an_ipv6_host(rt: HostRuntime) -> Result<(), Fail> {
    let text = b"program 100000 version 4 ready\n".as_slice();
    for netid in ["tcp6", "udp6"] {
        let shape = Shape {
            netid: Some(netid),
            ..shape_of(&[], &["::1", "100000", "4"])
        };
        assert_eq!(rt;
            is_ready(&rt, &shape, portmapper6(), text),
            Some(true),
            "{netid}"
        );
    }
    Ok(())
}

fn names_of(rt: &HostRuntime) -> Option<Vec<Service>> {
    read_services(rt.alloc(), b"portmapper 100000 sunrpc # of rpc(5)\n").ok()
}

/// `-u HOST sunrpc 3`: the name is one of the file.
#[test]
fn program_by_its_name(rt: HostRuntime) -> Result<(), Fail> {
    let services = names_of(&rt).ok_or("no names")?;
    let shape = Shape {
        services: &services,
        ..shape_of(&[Flag::Udp], &["127.0.0.1", "sunrpc", "3"])
    };
    let text = b"program 100000 version 3 ready\n".as_slice();
    assert_eq!(rt; is_ready(&rt, &shape, portmapper(), text), Some(true));
    Ok(())
}
