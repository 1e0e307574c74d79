use crate::address::claims;
use rb_address::{Caller, Host, Peer};
use rb_arguments::{ArgumentFault, Kind, read_args};
use rb_forward::{Forward, FwdId};
use rb_proto::{
    Announced, Answer, Books, Call, Context, ListReply, Listener, Listing, Reserved, Terms, answer,
    own_row_count, put_forwarded, put_results, refusal,
};
use rb_registry::RegistryFault;
use rb_rpc::{CallHead, Credential, ReplyStatus};
use rb_uaddr::AddressText;
use rb_xdr::{Kept, Meter};
use std::alloc::Global;
use std::process::Abort;
use std::test::Fail;

const ANNOUNCED: Announced = Announced {
    inet: Some([192, 0, 2, 1]),
    inet6: None,
};

// It listens on IPv4 alone.
pub(crate) fn listener() -> Listener {
    Listener {
        announced: ANNOUNCED,
        port: 111,
        local: None,
        terms: Terms::OPEN,
        reserved: Reserved::new(),
    }
}

// (200001, 1) on udp at `0.0.0.0.8.1`, with no owner
pub(crate) const UDP_ROW: &[u8] =
    b"\x00\x03\x0d\x41\0\0\0\x01\0\0\0\x03udp\0\0\0\0\x0b0.0.0.0.8.1\0\0\0\0\0";

// the own rows as version 2's DUMP shows them
const OWN_ROWS: &[u8] =
    b"\0\0\0\x01\0\x01\x86\xa0\0\0\0\x04\0\0\0\x06\0\0\0\x6f\0\0\0\x01\0\x01\x86\xa0\0\0\0\x03\0\0\0\x06\0\0\0\x6f\
\0\0\0\x01\0\x01\x86\xa0\0\0\0\x02\0\0\0\x06\0\0\0\x6f\0\0\0\x01\0\x01\x86\xa0\0\0\0\x04\0\0\0\x11\0\0\0\x6f\
\0\0\0\x01\0\x01\x86\xa0\0\0\0\x03\0\0\0\x11\0\0\0\x6f\0\0\0\x01\0\x01\x86\xa0\0\0\0\x02\0\0\0\x11\0\0\0\x6f\
\0\0\0\0";

// a call of procedure 0 of (200001, 1), and what its args have
pub(crate) const REMOTE: &[u8] = b"\x00\x03\x0d\x41\0\0\0\x01\0\0\0\0\0\0\0\x04\0\0\0\x07";

pub(crate) const ARGS: &[u8] = b"\0\0\0\x07";

// where that row is on this machine
fn target() -> Peer {
    Peer::new(Host::V4([127, 0, 0, 1]), 2049)
}

// an accepted reply of xid 1000, without results
const SUCCESS: &[u8] = b"\0\0\x03\xe8\0\0\0\x01\0\0\0\0\0\0\0\0\0\0\0\0\0\0\0\0";

// (200001, 1) on tcp at port 2049
const TCP_ROW: &[u8] = b"\x00\x03\x0d\x41\0\0\0\x01\0\0\0\x06\0\0\x08\x01";

// the reply of xid 7 to version 2's DUMP of the own rows and that row
const LISTED: &[u8] = b"\0\0\0\x07\0\0\0\x01\0\0\0\0\0\0\0\0\0\0\0\0\0\0\0\0\
\0\0\0\x01\0\x01\x86\xa0\0\0\0\x04\0\0\0\x06\0\0\0\x6f\0\0\0\x01\0\x01\x86\xa0\0\0\0\x03\0\0\0\x06\0\0\0\x6f\
\0\0\0\x01\0\x01\x86\xa0\0\0\0\x02\0\0\0\x06\0\0\0\x6f\0\0\0\x01\0\x01\x86\xa0\0\0\0\x04\0\0\0\x11\0\0\0\x6f\
\0\0\0\x01\0\x01\x86\xa0\0\0\0\x03\0\0\0\x11\0\0\0\x6f\0\0\0\x01\0\x01\x86\xa0\0\0\0\x02\0\0\0\x11\0\0\0\x6f\
\0\0\0\x01\x00\x03\x0d\x41\0\0\0\x01\0\0\0\x06\0\0\x08\x01\0\0\0\0";

const LIMIT: usize = 8;

const CLOCK: u64 = 1_000_000_000_500;

// What a call from 127.0.0.1 sees that came in a datagram.
fn context(reserved: &Reserved) -> Context<'_> {
    Context {
        announced: ANNOUNCED,
        terms: Terms::OPEN,
        reserved: reserved.lend(),
        limit: LIMIT,
        forwards: 1,
        clock: CLOCK,
        caller: Caller::Udp(claims([127, 0, 0, 1], 900), 9_000),
    }
}

// The head of a call of uid 500.
fn head(vers: u32, proc: u32) -> CallHead {
    CallHead {
        xid: 1,
        prog: 100_000,
        vers,
        proc,
        cred: Credential::Sys(500),
    }
}

// Books with room for two rows and for one forwarded call.
fn new_books(alloc: Global, meter: &mut Meter) -> Result<Books, RegistryFault> {
    Books::new(alloc, LIMIT, 1, 1000, &listener(), meter)
}

// All that was put into the buffer.
pub(crate) fn all_bytes<'a>(out: &'a Kept, meter: &mut Meter) -> &'a [u8] {
    let len = out.len(meter);
    out.lend(0..len, meter)
}

// Puts the results of such a call into the empty buffer, if it has any.
fn serve(
    books: &mut Books,
    vers: u32,
    proc: u32,
    args: &[u8],
    out: &mut Kept,
    meter: &mut Meter,
) -> Result<(), Fail> {
    let head = head(vers, proc);
    let reserved = Reserved::new();
    let context = context(&reserved);
    books.note_call(&head);
    let request = read_args(vers, proc, args)?;
    let (retained, _) = books.registry.retained_since(meter);
    if LIMIT - books.registry.len(meter) <= retained {
        return Err("no room".into());
    }
    let given = answer(books, &context, &Call { head, request }, args, meter);
    out.clear(meter);
    if let Answer::Results(results) = given {
        put_results(&results, books, 1000, out, meter)?;
    }
    Ok(())
}

// The answer to a DUMP of version 2.
fn own_rows_are_put(
    rt: &impl Abort,
    books: &mut Books,
    out: &mut Kept,
    meter: &mut Meter,
) -> Result<(), Fail> {
    serve(books, 2, 4, b"", out, meter)?;
    assert_eq!(rt; all_bytes(out, meter), OWN_ROWS);
    Ok(())
}

#[test]
fn calls_are_read_answered_and_put(rt: HostRuntime) -> Result<(), Fail> {
    let mut meter = Meter::new();
    let mut out = Kept::new(rt.alloc(), 1000, &mut meter)?;
    let mut books = new_books(rt.alloc(), &mut meter)?;
    own_rows_are_put(&rt, &mut books, &mut out, &mut meter)
}

// Begins a list while a seventh row is there, which is then removed.
fn begin_list(books: &mut Books, out: &mut Kept, meter: &mut Meter) -> Result<ListReply, Fail> {
    serve(books, 2, 1, TCP_ROW, out, meter)?;
    let list = ListReply::new(7, Listing::Mappings, &books.registry);
    serve(books, 2, 2, TCP_ROW, out, meter)?;
    Ok(list)
}

// The list has the removed row too, which is retained for it.
fn list_is_as_of_its_call(
    rt: &impl Abort,
    books: &mut Books,
    out: &mut Kept,
    meter: &mut Meter,
) -> Result<(), Fail> {
    let mut list = begin_list(books, out, meter)?;
    let part = list.next_part(&books.registry, out, meter);
    assert!(rt; part.last);
    assert_eq!(rt; out.lend(part.start..part.end, meter), LISTED);
    books.trim(Some(list.stamp()), meter);
    assert_eq!(rt; books.registry.retained_since(meter), (1, 2));
    Ok(())
}

#[test]
fn lists_are_as_of_their_call(rt: HostRuntime) -> Result<(), Fail> {
    let mut meter = Meter::new();
    let mut out = Kept::new(rt.alloc(), 2000, &mut meter)?;
    let mut books = new_books(rt.alloc(), &mut meter)?;
    list_is_as_of_its_call(&rt, &mut books, &mut out, &mut meter)
}

// Whether the SET of a row on tcp wants room.
fn set_wants_room(books: &Books, meter: &mut Meter) -> Result<bool, ArgumentFault> {
    let call = Call {
        head: head(2, 1),
        request: read_args(2, 1, TCP_ROW)?,
    };
    Ok(books.wants_room(&context(&Reserved::new()), &call, meter))
}

// It wants room until the row is there.
fn room_is_wanted_once(
    rt: &impl Abort,
    books: &mut Books,
    out: &mut Kept,
    meter: &mut Meter,
) -> Result<(), Fail> {
    assert_eq!(rt; set_wants_room(books, meter), Ok(true));
    serve(books, 2, 1, TCP_ROW, out, meter)?;
    assert_eq!(rt; set_wants_room(books, meter), Ok(false));
    Ok(())
}

#[test]
fn sets_want_room(rt: HostRuntime) -> Result<(), Fail> {
    let mut meter = Meter::new();
    let mut out = Kept::new(rt.alloc(), 1000, &mut meter)?;
    let mut books = new_books(rt.alloc(), &mut meter)?;
    room_is_wanted_once(&rt, &mut books, &mut out, &mut meter)
}

#[test]
fn failed_indirect_is_answered(rt: HostRuntime) {
    let refused = refusal(Kind::Indirect, ReplyStatus::SystemErr);
    assert_eq!(rt; refused, Answer::Refused(ReplyStatus::SystemErr));
}

// A call is forwarded, sent and answered, and then none is left.
fn forwarded_call_ends(
    rt: &impl Abort,
    books: &mut Books,
    out: &mut Kept,
    meter: &mut Meter,
) -> Result<(), Fail> {
    serve(books, 4, 1, UDP_ROW, out, meter)?;
    serve(books, 4, 10, REMOTE, out, meter)?;
    assert!(rt; books.unsent(meter).is_some());
    assert!(rt; books.sent(FwdId { number: 1 }, meter).is_ok());
    assert!(rt; books.reply(CLOCK, target(), SUCCESS, meter).is_some());
    assert!(rt; books.due(CLOCK + 5000, meter).is_none());
    books.drop_caller(1, meter);
    Ok(())
}

#[test]
fn forwarded_calls_end(rt: HostRuntime) -> Result<(), Fail> {
    let mut meter = Meter::new();
    let mut out = Kept::new(rt.alloc(), 1000, &mut meter)?;
    let mut books = new_books(rt.alloc(), &mut meter)?;
    forwarded_call_ends(&rt, &mut books, &mut out, &mut meter)
}

// Results passed for a CALLIT of version 2.
#[test]
fn forwarded_results_are_put(rt: HostRuntime) -> Result<(), Fail> {
    let mut meter = Meter::new();
    let mut out = Kept::new(rt.alloc(), 100, &mut meter)?;
    let forward = Forward {
        caller: Caller::Udp(claims([127, 0, 0, 1], 2049), 9_000),
        xid: 1,
        kind: Kind::Callit2,
        target: target(),
        shown: target(),
        prog: 200_001,
        vers: 1,
        proc: 0,
    };
    put_forwarded(&forward, ARGS, 100, &mut out, &mut meter)?;
    let results = b"\0\0\x08\x01\0\0\0\x04\0\0\0\x07";
    assert_eq!(rt; all_bytes(&out, &mut meter), results.as_slice());
    Ok(())
}

// How many rows of its own a listener has, and the books that are made for it.
fn has_own_rows(alloc: Global, listener: &Listener, count: usize) -> Result<bool, RegistryFault> {
    let mut meter = Meter::new();
    let books = Books::new(alloc, count, 0, 1000, listener, &mut meter)?;
    Ok(own_row_count(listener) == count && books.registry.len(&mut meter) == count)
}

// Versions 4, 3 and 2 on tcp and udp, 4 and 3 on tcp6 and udp6, and 4 and 3 on local.
#[test]
fn own_rows_have_room(rt: HostRuntime) -> Result<(), Fail> {
    let inet6 = Announced {
        inet: None,
        inet6: Some([0; 16]),
    };
    let both = Announced {
        inet: ANNOUNCED.inet,
        inet6: inet6.inet6,
    };
    let over_ipv6 = Listener {
        announced: inet6,
        ..listener()
    };
    let everywhere = Listener {
        announced: both,
        port: 111,
        local: Some(AddressText::new(b"/run/rpcbind.sock")),
        terms: Terms::OPEN,
        reserved: Reserved::new(),
    };
    assert_eq!(rt; has_own_rows(rt.alloc(), &listener(), 6), Ok(true));
    assert_eq!(rt; has_own_rows(rt.alloc(), &over_ipv6, 4), Ok(true));
    assert_eq!(rt; has_own_rows(rt.alloc(), &everywhere, 12), Ok(true));
    let mut meter = Meter::new();
    let refused = Books::new(rt.alloc(), 11, 0, 1000, &everywhere, &mut meter);
    assert!(rt; matches!(refused, Err(RegistryFault::BadLimits)));
    Ok(())
}
