//! Replies of more than one fragment.
use crate::client::{Caller, Client};
use crate::datagrams::answers;
use crate::leaving::dumps;
use crate::messages::{MARK_40, bytes_of, null_reply_record};
use crate::records::answers_a_call;
use crate::turns::{Host, PORT, Stopped};
use std::test::Fail;

/// This many programs are set, from 300000 on: version 1 on TCP at port 2049.
pub(crate) fn sets_rows(rt: &HostRuntime, host: &mut Host<'_>, count: u32) -> Option<bool> {
    let mut caller = Caller::new(rt, 0)?;
    for i in 0..count {
        let prog = 300_000u32.wrapping_add(i);
        let set = [i, 0, 2, 100_000, 2, 1, 0, 0, 0, 0, prog, 1, 6, 2049];
        if !answers(rt, host, &mut caller, &set, &[i, 1, 0, 0, 0, 0, 1])? {
            return Some(false);
        }
    }
    Some(true)
}

/// A DUMP, and a NULL call after it.
const LIST_AND_NULL: [u32; 22] = [
    MARK_40, 1, 0, 2, 100_000, 2, 4, 0, 0, 0, 0, MARK_40, 2, 0, 2, 100_000, 2, 0, 0, 0, 0, 0,
];

/// A fragment of 1,024 bytes that is not the last, the head of the reply, and the first own row: version 4 on TCP.
const LIST_BEGINS: [u32; 12] = [1024, 1, 1, 0, 0, 0, 0, 1, 100_000, 4, 6, PORT as u32];

/// With the daemon's own six there are 101 rows. The list is 24 bytes of head, 20 of each row and 4 of its end:
/// 2,048, in two fragments of the greatest length. The call after it is answered too.
fn gives_full_fragments(rt: &HostRuntime, host: &mut Host<'_>) -> Option<bool> {
    let are_set = sets_rows(rt, host, 95)?;
    let calls = bytes_of(rt.alloc(), &LIST_AND_NULL).ok()?;
    let list = bytes_of(rt.alloc(), &LIST_BEGINS).ok()?;
    let reply = null_reply_record(rt.alloc(), 2).ok()?;
    let mut client = Client::new(rt)?;
    let is_sent = client.send(&calls);
    client.receive(host, 2084);
    let got = client.got();
    let is_whole = got.len() == 2084 && got.starts_with(&list) && got.ends_with(&reply);
    Some(are_set && is_sent && is_whole && host.is_well())
}

// EVENT-2 OUTBOX-3
#[test]
fn list_of_full_fragments(rt: HostRuntime) -> Result<(), Fail> {
    let clock = Stopped::new(&rt);
    let mut host = Host::new(&clock, 1).ok_or("no daemon")?;
    assert_eq!(rt; gives_full_fragments(&rt, &mut host), Some(true));
    Ok(())
}

/// A turn writes at most this many bytes to one connection: enough, 65,536, and what the last write is more.
const MOST_OF_A_TURN: usize = 65_536 + 65_792;

/// All 300 rows are there, so a list has more than 10,000 bytes, and a client asks for 400. It is left when it has
/// got enough for a turn, and is served on in the next.
fn leaves_a_greedy_client(rt: &HostRuntime, host: &mut Host<'_>) -> Option<bool> {
    let are_set = sets_rows(rt, host, 294)?;
    let mut reader = Client::new(rt)?;
    host.turn();
    let is_sent = reader.send(&dumps(rt.alloc(), 400)?);
    host.turn();
    let first = reader.discard();
    host.turn();
    let second = reader.discard();
    let is_left = 0 < first && first <= MOST_OF_A_TURN && 0 < second;
    Some(are_set && is_sent && is_left && host.is_well())
}

// TURN-2 TURN-3 TURN-4
#[test]
fn greedy_client_is_left(rt: HostRuntime) -> Result<(), Fail> {
    let clock = Stopped::new(&rt);
    let mut host = Host::new(&clock, 1).ok_or("no daemon")?;
    assert_eq!(rt; leaves_a_greedy_client(&rt, &mut host), Some(true));
    Ok(())
}

/// In one turn the first program is removed, and another is set.
fn replaces_a_row(rt: &HostRuntime, host: &mut Host<'_>) -> Option<bool> {
    let unset = [1, 0, 2, 100_000, 2, 2, 0, 0, 0, 0, 300_000, 1, 0, 0];
    let set = [2, 0, 2, 100_000, 2, 1, 0, 0, 0, 0, 400_000, 1, 6, 2049];
    let mut caller = Caller::new(rt, 0)?;
    let is_sent = caller.send(&bytes_of(rt.alloc(), &unset).ok()?)
        && caller.send(&bytes_of(rt.alloc(), &set).ok()?);
    caller.receive(host);
    let is_unset = caller.got_just(&bytes_of(rt.alloc(), &[1, 1, 0, 0, 0, 0, 1]).ok()?);
    let is_set = caller.receive_next()
        && caller.got_just(&bytes_of(rt.alloc(), &[2, 1, 0, 0, 0, 0, 1]).ok()?);
    Some(is_sent && is_unset && is_set)
}

/// As many turns as fill the sockets of a connection with lists that nobody reads.
const FILLING: u32 = 100;

/// All 300 rows are there. A client asks for more lists than the sockets keep, and reads none, so one of them is in the
/// middle when a row goes, which the list still needs. The next SET takes the place, and the connection is closed in that
/// turn, though nothing shows it.
fn evicts_the_reader(rt: &HostRuntime, host: &mut Host<'_>) -> Option<bool> {
    let are_set = sets_rows(rt, host, 294)?;
    let mut reader = Client::new(rt)?;
    host.turn();
    let is_sent = reader.send(&dumps(rt.alloc(), 400)?);
    for _ in 0..FILLING {
        host.turn();
    }
    let is_replaced = replaces_a_row(rt, host)?;
    for _ in 0..FILLING {
        reader.discard();
    }
    Some(are_set && is_sent && is_replaced && reader.is_closed() && answers_a_call(rt, host, 3)?)
}

// CLOSE-2
#[test]
fn set_evicts_a_reader(rt: HostRuntime) -> Result<(), Fail> {
    let clock = Stopped::new(&rt);
    let mut host = Host::new(&clock, 1).ok_or("no daemon")?;
    assert_eq!(rt; evicts_the_reader(&rt, &mut host), Some(true));
    Ok(())
}

/// The program of this number is set at 127.0.0.1.8.1 on tcp, by version 4.
fn sets_an_address(
    rt: &HostRuntime,
    host: &mut Host<'_>,
    caller: &mut Caller,
    prog: u32,
) -> Option<bool> {
    let [tcp, octets, dots, port, last] = [
        0x7463_7000,
        0x3132_372e,
        0x302e_302e,
        0x312e_382e,
        0x3100_0000,
    ];
    let set = [
        prog, 0, 2, 100_000, 4, 1, 0, 0, 0, 0, prog, 1, 3, tcp, 13, octets, dots, port, last, 0,
    ];
    answers(rt, host, caller, &set, &[prog, 1, 0, 0, 0, 0, 1])
}

/// The list has 24 bytes of head, 56 of each of the daemon's own six rows, 48 of each row of version 2, 52 of each of version
/// 4, and 4 of its end: 9,000, which goes out as one datagram. With one more row it is too long for one.
fn gives_the_longest_list(rt: &HostRuntime, host: &mut Host<'_>) -> Option<bool> {
    let mut caller = Caller::new(rt, 0)?;
    let mut are_set = sets_rows(rt, host, 168)?;
    for prog in 400_000..400_011 {
        are_set = are_set && sets_an_address(rt, host, &mut caller, prog)?;
    }
    let dump = bytes_of(rt.alloc(), &[7, 0, 2, 100_000, 3, 4, 0, 0, 0, 0]).ok()?;
    let is_sent = caller.send(&dump);
    caller.receive(host);
    let is_whole = caller.first_word_of(9_000) == Some(7);
    let is_one_more_set = sets_an_address(rt, host, &mut caller, 400_011)?;
    let dump = [8, 0, 2, 100_000, 3, 4, 0, 0, 0, 0];
    let is_refused = answers(rt, host, &mut caller, &dump, &[8, 1, 0, 0, 0, 5])?;
    Some(are_set && is_sent && is_whole && is_one_more_set && is_refused)
}

// LENGTH-1
#[test]
fn list_of_9000_bytes_is_a_datagram(rt: HostRuntime) -> Result<(), Fail> {
    let clock = Stopped::new(&rt);
    let mut host = Host::new(&clock, 1).ok_or("no daemon")?;
    assert_eq!(rt; gives_the_longest_list(&rt, &mut host), Some(true));
    Ok(())
}
