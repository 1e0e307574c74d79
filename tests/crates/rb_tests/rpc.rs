use rb_rpc::{
    BadReply, CallHead, Credential, Marks, Part, ReplyHead, ReplyStatus, Verdict, fragment_header,
    put_call, put_reply, read_call, read_reply,
};
use rb_xdr::{Kept, Meter};
use std::test::Fail;

// The reply of SUCCESS to xid 1.
const SUCCESS: [u8; 24] = [
    0, 0, 0, 1, 0, 0, 0, 1, 0, 0, 0, 0, 0, 0, 0, 0, 0, 0, 0, 0, 0, 0, 0, 0,
];

const HEAD: ReplyHead = ReplyHead {
    xid: 1,
    status: ReplyStatus::Success,
};

#[test]
fn replies_are_put_and_read(rt: HostRuntime) -> Result<(), Fail> {
    assert_eq!(rt; read_reply(&SUCCESS), Ok((HEAD, 24)));
    let short = [0, 0, 0, 1, 0, 0, 0, 1, 0, 0, 0, 0, 0, 0, 0, 0, 0, 0, 0, 0];
    assert_eq!(rt; read_reply(&short), Err(BadReply));
    let mut meter = Meter::new();
    let mut small = Kept::new(rt.alloc(), 23, &mut meter)?;
    assert!(rt; put_reply(&HEAD, &mut small, &mut meter).is_err());
    assert_eq!(rt; small.len(&mut meter), 0);
    let mut kept = Kept::new(rt.alloc(), 24, &mut meter)?;
    assert!(rt; put_reply(&HEAD, &mut kept, &mut meter).is_ok());
    let len = kept.len(&mut meter);
    assert_eq!(rt; kept.lend(0..len, &mut meter), SUCCESS.as_slice());
    Ok(())
}

#[test]
fn calls_are_put_and_read(rt: HostRuntime) -> Result<(), Fail> {
    let head = CallHead {
        xid: 1,
        prog: 100_000,
        vers: 4,
        proc: 1,
        cred: Credential::Sys(500),
    };
    let call = [
        0, 0, 0, 1, 0, 0, 0, 0, 0, 0, 0, 2, 0, 1, 0x86, 0xa0, 0, 0, 0, 4, 0, 0, 0, 1, 0, 0, 0, 1,
        0, 0, 0, 20, 0, 0, 0, 0, 0, 0, 0, 0, 0, 0, 1, 0xf4, 0, 0, 0, 0, 0, 0, 0, 0, 0, 0, 0, 0, 0,
        0, 0, 0,
    ];
    let mut meter = Meter::new();
    let mut kept = Kept::new(rt.alloc(), 60, &mut meter)?;
    assert!(rt; put_call(&head, &mut kept, &mut meter).is_ok());
    let len = kept.len(&mut meter);
    assert_eq!(rt; kept.lend(0..len, &mut meter), call.as_slice());
    assert_eq!(rt; read_call(&call), Verdict::Call(head, 60));
    let other_version = [0, 0, 0, 5, 0, 0, 0, 0, 0, 0, 0, 3];
    assert_eq!(rt; read_call(&other_version), Verdict::RpcMismatch(5));
    Ok(())
}

#[test]
fn records_are_marked(rt: HostRuntime) -> Result<(), Fail> {
    assert_eq!(rt; fragment_header(1_024, false), [0, 0, 4, 0]);
    let mut marks = Marks::new();
    for byte in fragment_header(3, true) {
        assert_eq!(rt; marks.feed(byte), (Part::Header, false));
    }
    assert_eq!(rt; marks.feed(7), (Part::Data, false));
    assert_eq!(rt; marks.feed_data(&[8, 9, 0x80, 0]), (2, true));
    Ok(())
}
