use rb_show::{
    Ask, Form, InfoFault, Question, Shown, show_datagram, show_reply, write_call, write_marked_call,
};
use std::test::Fail;

/// A question of nobody.
fn of_nobody(question: Question) -> Ask {
    Ask {
        question,
        uid: None,
    }
}

#[test]
fn write_call_has_memory(rt: HostRuntime) -> Result<(), Fail> {
    let mut call = Vec::new(rt.alloc());
    let ask = of_nobody(Question::Pmap);
    write_marked_call(rt.alloc(), &ask, 1, &mut call).map_err(|_| "refused")?;
    let dump =
        b"\x80\0\0\x28\0\0\0\x01\0\0\0\0\0\0\0\x02\0\x01\x86\xa0\0\0\0\x02\0\0\0\x04\0\0\0\0\0\0\0\0\0\0\0\0\0\0\0\0";
    assert_eq!(rt; call.as_slice(), dump.as_slice());
    let mut datagram = Vec::new(rt.alloc());
    write_call(rt.alloc(), &ask, 1, &mut datagram).map_err(|_| "refused")?;
    assert!(rt; dump.get(4..) == Some(datagram.as_slice()));
    Ok(())
}

/// The greatest numbers of a call, its user's among them, and of a line that a program is ready.
#[test]
fn greatest_numbers_have_memory(rt: HostRuntime) -> Result<(), Fail> {
    let ask = Ask {
        question: Question::Null(u32::MAX, u32::MAX),
        uid: Some(u32::MAX),
    };
    let mut datagram = Vec::new(rt.alloc());
    write_call(rt.alloc(), &ask, 1, &mut datagram).map_err(|_| "refused")?;
    let call =
        b"\0\0\0\x01\0\0\0\0\0\0\0\x02\xff\xff\xff\xff\xff\xff\xff\xff\0\0\0\0\0\0\0\x01\0\0\0\x14\0\0\0\0\0\0\0\0\xff\xff\xff\xff\0\0\0\0\0\0\0\0\0\0\0\0\0\0\0\0";
    assert_eq!(rt; datagram.as_slice(), call.as_slice());
    let reply = b"\0\0\0\x01\0\0\0\x01\0\0\0\0\0\0\0\0\0\0\0\0\0\0\0\0".as_slice();
    let mut shown = Vec::new(rt.alloc());
    let result = show_datagram(rt.alloc(), &ask, Form::Plain, 1, reply, &mut shown);
    assert!(rt; result == Ok(Shown::Null));
    assert_eq!(rt;
        shown.as_slice(),
        b"program 4294967295 version 4294967295 ready\n".as_slice()
    );
    Ok(())
}

// DATA-6
/// A datagram is a whole record: the port of a GETPORT is read, and a byte less is no reply.
#[test]
fn datagram_is_a_record(rt: HostRuntime) -> Result<(), Fail> {
    let reply = b"\0\0\0\x01\0\0\0\x01\0\0\0\0\0\0\0\0\0\0\0\0\0\0\0\0\0\0\x08\x01".as_slice();
    let ask = of_nobody(Question::Port(6, 100_003, 3));
    let mut nothing = Vec::new(rt.alloc());
    let shown = show_datagram(rt.alloc(), &ask, Form::Plain, 1, reply, &mut nothing);
    assert!(rt; shown == Ok(Shown::Port(2049)));
    let cut = &reply[..27];
    let shown = show_datagram(rt.alloc(), &ask, Form::Plain, 1, cut, &mut nothing);
    assert!(rt; shown == Err(InfoFault::CutOff));
    assert!(rt; nothing.is_empty());
    Ok(())
}

#[test]
fn show_reply_has_memory(rt: HostRuntime) -> Result<(), Fail> {
    let head = b"\x80\0\0\x50\0\0\0\x01\0\0\0\x01\0\0\0\0\0\0\0\0\0\0\0\0\0\0\0\0";
    let entry =
        b"\0\0\0\x01\0\0\0\x0d192.0.2.1.8.1\0\0\0\0\0\0\x03udp\0\0\0\0\x01\0\0\0\x04inet\0\0\0\x03udp\0\0\0\0\0";
    let mut reply = Vec::new(rt.alloc());
    reply.extend_from_slice(head.as_slice())?;
    reply.extend_from_slice(entry.as_slice())?;
    let mut shown = Vec::new(rt.alloc());
    let ask = of_nobody(Question::Entries(200_001, 1));
    show_reply(rt.alloc(), &ask, Form::Plain, 1, &reply, &mut shown).map_err(|_| "refused")?;
    assert_eq!(rt;
        shown.as_slice(),
        b"udp 192.0.2.1.8.1 1 inet udp\n".as_slice()
    );
    Ok(())
}

#[test]
fn summary_has_memory(rt: HostRuntime) -> Result<(), Fail> {
    let head = b"\x80\0\0\x48\0\0\0\x01\0\0\0\x01\0\0\0\0\0\0\0\0\0\0\0\0\0\0\0\0";
    let row =
        b"\0\0\0\x01\0\x01\x86\xa0\0\0\0\x04\0\0\0\x03tcp\0\0\0\0\0\0\0\0\x09superuser\0\0\0\0\0\0\0";
    let mut reply = Vec::new(rt.alloc());
    reply.extend_from_slice(head.as_slice())?;
    reply.extend_from_slice(row.as_slice())?;
    let mut shown = Vec::new(rt.alloc());
    let ask = of_nobody(Question::Summary);
    show_reply(rt.alloc(), &ask, Form::Plain, 1, &reply, &mut shown).map_err(|_| "refused")?;
    assert_eq!(rt;
        shown.as_slice(),
        b"   program version(s) netid(s)                         service     owner\n    100000  4         tcp                              -           superuser\n".as_slice()
    );
    Ok(())
}
