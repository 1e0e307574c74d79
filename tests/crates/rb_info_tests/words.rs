use rb_address::{Netid, Transport};
use rb_words::{
    Expected, Flag, Plan, Refusal, Shape, Spot, Way, name_of, number_of, read_services, read_words,
    write_refusal,
};
use std::test::Fail;

/// `--uid 7 -u HOST 100000` is read with each of its parts.
#[test]
fn words_are_read(rt: HostRuntime) -> Result<(), Fail> {
    let shape = Shape {
        flags: &[Flag::Udp],
        port: None,
        uid: Some("7"),
        target: None,
        netid: None,
        address: None,
        local: None,
        broadcast: None,
        layouts: &[],
        services: &[],
        words: &["192.0.2.1", "100000"],
    };
    let request = read_words(&shape).map_err(|_| "refused")?;
    assert_eq!(rt; request.uid, Some(7));
    assert_eq!(rt; request.port, 111);
    assert!(rt;
        matches!(
            request.plan,
            Plan::Ping(Way::Getport(Transport::Udp), 100_000, None)
        )
    );
    assert_eq!(rt; Netid::named(b"udp6".as_slice()), Some(Netid::Udp6));
    assert_eq!(rt; Netid::Udp6.text().as_bytes(), b"udp6".as_slice());
    Ok(())
}

#[test]
fn refusal_is_written(rt: HostRuntime) -> Result<(), Fail> {
    let shape = Shape {
        flags: &[Flag::Table],
        port: Some("-5"),
        uid: None,
        target: None,
        netid: None,
        address: None,
        local: None,
        broadcast: None,
        layouts: &[],
        services: &[],
        words: &[],
    };
    let refusal = Refusal {
        at: Spot::Port,
        wanted: Expected::Port,
    };
    assert!(rt;
        matches!(
            read_words(&shape),
            Err(Refusal {
                at: Spot::Port,
                wanted: Expected::Port,
            },)
        )
    );
    let mut said = Vec::new(rt.alloc());
    write_refusal(&shape, refusal, &mut said)?;
    assert_eq!(rt;
        said.as_slice(),
        b"rpcinfo: the words can't be read; see --help\nrpcinfo: '-5': a number from 1 to 65535 is wanted\n".as_slice()
    );
    Ok(())
}

// NAMES-1
/// The names of a line are those of its program, and the first of them is its name.
#[test]
fn names_are_read(rt: HostRuntime) -> Result<(), Fail> {
    let text = b"portmapper 100000 sunrpc # the first\n";
    let services = read_services(rt.alloc(), text.as_slice())?;
    assert_eq!(rt; number_of(&services, b"sunrpc".as_slice()), Some(100_000));
    assert!(rt; name_of(&services, 100_000) == Some(b"portmapper".as_slice()));
    Ok(())
}
