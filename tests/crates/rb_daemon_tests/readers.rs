//! Clients that read slowly, or not at all.
use crate::client::Client;
use crate::leaving::{LIST, ROWS, dumps};
use crate::listeners::new_host;
use crate::lists::sets_rows;
use crate::pauses::{SOON, wait_of_a_turn};
use crate::turns::{Host, Stopped};
use std::test::Fail;

/// More readers than a turn serves last, which is 8 of them.
const READERS: usize = 12;

/// This many lists for each are more than a few turns give.
const LISTS: u32 = 24;

/// If 8 of 12 are served in a turn, none is passed over in two turns in a row.
const MOST_MISSED: u32 = 1;

/// A reader, how many bytes it got, and how many turns in a row gave it nothing.
#[derive(Drop)]
struct Reader {
    client: Client,
    count: usize,
    missed: u32,
}

impl Reader {
    fn new(rt: &HostRuntime, host: &mut Host<'_>) -> Option<Reader> {
        let client = Client::new(rt)?;
        host.turn();
        Some(Reader {
            client,
            count: 0,
            missed: 0,
        })
    }

    /// Reads what has come. Whether it is not passed over while lists are owed.
    fn reads_on(&mut self) -> bool {
        match self.client.discard() {
            0 if !self.has_all() => self.missed = self.missed.saturating_add(1),
            more => {
                self.count = self.count.saturating_add(more);
                self.missed = 0;
            }
        }
        self.missed <= MOST_MISSED
    }

    fn has_all(&self) -> bool {
        self.count == LISTS as usize * LIST
    }
}

/// Takes turns, after each of which all readers read, until they have all that they called for.
fn serves_each(rt: &HostRuntime, host: &mut Host<'_>) -> Option<bool> {
    let are_set = sets_rows(rt, host, ROWS)?;
    let lists = dumps(rt.alloc(), LISTS)?;
    let mut readers = Vec::new(rt.alloc());
    for _ in 0..READERS {
        readers.push(Reader::new(rt, host)?).ok()?;
    }
    for reader in &mut readers {
        if !reader.client.send(&lists) {
            return None;
        }
    }
    for _ in 0..100 {
        host.turn();
        for reader in &mut readers {
            if !reader.reads_on() {
                return Some(false);
            }
        }
        if readers.iter().all(|reader| reader.has_all()) {
            return Some(are_set && host.is_well());
        }
    }
    Some(false)
}

// TURN-3
#[test]
fn no_reader_starves(rt: HostRuntime) -> Result<(), Fail> {
    let clock = Stopped::new(&rt);
    let mut host = Host::new(&clock, READERS).ok_or("no daemon")?;
    assert_eq!(rt; serves_each(&rt, &mut host), Some(true));
    Ok(())
}

/// The rows with those of all listeners are as many as there may be.
const OTHER_ROWS: u32 = 288;

/// The milliseconds that bytes that are owed may wait.
const OWED: u64 = 30_000;

/// This many lists are more than the socket and the daemon take a few times.
const CALLS: u32 = 150;

/// Sets the rows, of which the log tells no more afterwards.
pub(crate) fn sets_other_rows(
    rt: &HostRuntime,
    host: &mut Host<'_>,
    clock: &Stopped,
) -> Option<bool> {
    let are_set = sets_rows(rt, host, OTHER_ROWS)?;
    clock.advance(2_000);
    host.turn();
    host.take_log()?;
    Some(are_set)
}

/// A client on the local socket that calls for one list after another, and reads none, until the socket takes no more of
/// one that the core has given.
pub(crate) fn full_reader(rt: &HostRuntime, host: &mut Host<'_>) -> Option<Client> {
    let list = dumps(rt.alloc(), 1)?;
    let mut reader = Client::local(rt)?;
    for _ in 0..CALLS {
        if !reader.send(&list) {
            return None;
        }
        host.turn();
    }
    Some(reader)
}

/// What the log tells of the client that is given up.
const GIVEN_UP: &[u8] = b"rpcbind: connection of local given up\n";

/// Takes as many turns as write all that a socket takes.
fn write_all(host: &mut Host<'_>) {
    for _ in 0..5 {
        host.turn();
    }
}

/// Whether the log tells so after turns.
fn is_given_up(host: &mut Host<'_>) -> Option<bool> {
    write_all(host);
    Some(host.take_log()?.as_slice() == GIVEN_UP)
}

/// Whether the log tells nothing after turns.
fn is_kept(host: &mut Host<'_>) -> Option<bool> {
    write_all(host);
    Some(host.take_log()?.is_empty())
}

/// Who reads each time in the last millisecond stays. Who then reads nothing is given up after 30 seconds, and not a
/// millisecond before.
fn gives_up_who_reads_no_more(
    rt: &HostRuntime,
    host: &mut Host<'_>,
    clock: &Stopped,
) -> Option<bool> {
    let are_set = sets_other_rows(rt, host, clock)?;
    let mut reader = full_reader(rt, host)?;
    for _ in 0..3 {
        clock.advance(OWED - 1);
        let stays = is_kept(host)?;
        if !stays || reader.discard() == 0 || !is_kept(host)? {
            return Some(false);
        }
    }
    clock.advance(OWED - 1);
    let stays = is_kept(host)?;
    clock.advance(1);
    Some(are_set && stays && is_given_up(host)? && host.is_well())
}

// STUCK-1
#[test]
fn slow_reader_stays(rt: HostRuntime) -> Result<(), Fail> {
    let clock = Stopped::at(&rt, 1_000_001, 5_999);
    let mut host = new_host(&rt, &clock, 1)?;
    assert_eq!(rt;
        gives_up_who_reads_no_more(&rt, &mut host, &clock),
        Some(true)
    );
    Ok(())
}

/// What the core has given waits in the daemon alone: no deadline of the core is as near. A turn waits until it is due,
/// though the place behind it is free.
fn gives_up_the_full(rt: &HostRuntime, host: &mut Host<'_>, clock: &Stopped) -> Option<bool> {
    let are_set = sets_other_rows(rt, host, clock)?;
    let reader = full_reader(rt, host)?;
    clock.advance(OWED - SOON);
    let waits = wait_of_a_turn(host, clock) == SOON;
    clock.advance(SOON - 1);
    let stays = is_kept(host)?;
    clock.advance(1);
    let is_over = is_given_up(host)?;
    drop(reader);
    Some(are_set && waits && stays && is_over && host.is_well())
}

// STUCK-1
#[test]
fn full_socket_is_given_up(rt: HostRuntime) -> Result<(), Fail> {
    let clock = Stopped::new(&rt);
    let mut host = new_host(&rt, &clock, 2)?;
    assert_eq!(rt; gives_up_the_full(&rt, &mut host, &clock), Some(true));
    Ok(())
}
