use rb_rpc::{CallFeed, CallHead, Credential, Verdict, read_call};
use std::mem::size_of;
use std::test::Fail;

// SET of version 4 by AUTH_SYS with uid 500, and the first word of its arguments.
const SET: [u8; 64] = [
    0, 0, 0, 1, 0, 0, 0, 0, 0, 0, 0, 2, 0, 1, 0x86, 0xa0, 0, 0, 0, 4, 0, 0, 0, 1, 0, 0, 0, 1, 0, 0,
    0, 20, 0, 0, 0, 0, 0, 0, 0, 0, 0, 0, 1, 0xf4, 0, 0, 0, 0, 0, 0, 0, 0, 0, 0, 0, 0, 0, 0, 0, 0,
    0, 3, 0x0d, 0x41,
];

const HEAD: CallHead = CallHead {
    xid: 1,
    prog: 100_000,
    vers: 4,
    proc: 1,
    cred: Credential::Sys(500),
};

// Fed byte by byte, and saved and loaded before each: no call before the head's last byte.
#[test]
fn calls_are_fed(rt: HostRuntime) -> Result<(), Fail> {
    let mut feed = CallFeed::new();
    for (place, byte) in SET.iter().enumerate() {
        assert_eq!(rt; feed.end(), read_call(&SET[..place]));
        feed = CallFeed::load(feed.save());
        assert_eq!(rt; feed.feed(&[*byte]), usize::from(place < 60));
    }
    assert_eq!(rt; feed.end(), Verdict::Call(HEAD, 60));
    Ok(())
}

// Fed in two pieces, wherever the first ends: words are in one of them or in both.
#[test]
fn pieces_are_fed(rt: HostRuntime) -> Result<(), Fail> {
    for place in 0..SET.len() {
        let (front, rest) = SET.split_at(place);
        let mut feed = CallFeed::new();
        let count = feed.feed(front) + feed.feed(rest);
        assert_eq!(rt; count, 60);
        assert_eq!(rt; feed.end(), Verdict::Call(HEAD, 60));
    }
    Ok(())
}

// Words that no feed was saved as are some feed.
#[test]
fn other_words_are_loaded(rt: HostRuntime) -> Result<(), Fail> {
    let feed = CallFeed::load([7; 16]);
    assert_eq!(rt; feed.end(), Verdict::NoCall);
    Ok(())
}

// A call that is being read is kept as its feed, beside its arguments.
#[test]
fn a_feed_has_at_most_64_bytes(rt: HostRuntime) {
    assert!(rt; size_of::<CallFeed>() <= 64);
}
