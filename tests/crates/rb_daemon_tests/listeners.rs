//! The listeners apart from those of IPv4 addresses: [::1], and the local socket with its file.
use crate::client::{Caller, Client};
use crate::datagrams::answers;
use crate::messages::{bytes_of, null_record, null_reply_record};
use crate::turns::{HERE, Host, LOCAL, PORT, Stopped, address, address6, everywhere, plain};
use rb_address::Host as Address;
use rb_daemon::{DaemonFault, Logged, Settings, Step};
use std::fs;
use std::net::{Ipv4Addr, SocketAddr};
use std::os::unix::fs::{FileTypeExt, PermissionsExt};
use std::os::unix::net::UnixListener;
use std::test::Fail;

/// A daemon on all listeners, in a new file of the local socket.
pub(crate) fn new_host<'a>(
    rt: &HostRuntime,
    clock: &'a Stopped,
    conns: usize,
) -> Result<Host<'a>, &'static str> {
    let _ = fs::remove_file(rt, LOCAL);
    let settings = Settings {
        log: Logged::All,
        ..everywhere(&HERE, conns)
    };
    Host::with(clock, &settings).map_err(|_| "no daemon")
}

/// A SET of version 2 in a record of 56 bytes: the program 200001 version 1 on TCP, at port 2049.
const SET: [u32; 15] = [
    0x8000_0038,
    3,
    0,
    2,
    100_000,
    2,
    1,
    0,
    0,
    0,
    0,
    200_001,
    1,
    6,
    2049,
];

/// A client may register as one from 127.0.0.1, and its transport is TCP.
fn registers(rt: &HostRuntime, host: &mut Host<'_>, client: &mut Client) -> Option<bool> {
    let reply = bytes_of(rt.alloc(), &[0x8000_001c, 3, 1, 0, 0, 0, 0, 1]).ok()?;
    let is_sent = client.send(&bytes_of(rt.alloc(), &SET).ok()?);
    client.receive(host, 32);
    let get_port = [4, 0, 2, 100_000, 2, 3, 0, 0, 0, 0, 200_001, 1, 6, 0];
    let found = [4, 1, 0, 0, 0, 0, 2049];
    let is_found = answers(rt, host, &mut Caller::new(rt, 0)?, &get_port, &found)?;
    Some(is_sent && client.got_just(&reply) && !client.is_closed() && is_found)
}

#[test]
fn local_socket_serves(rt: HostRuntime) -> Result<(), Fail> {
    let clock = Stopped::new(&rt);
    let mut host = new_host(&rt, &clock, 1)?;
    let mut client = Client::local(&rt).ok_or("no connection")?;
    assert_eq!(rt; registers(&rt, &mut host, &mut client), Some(true));
    Ok(())
}

// BIND-2
#[test]
fn loopback6_serves(rt: HostRuntime) -> Result<(), Fail> {
    let clock = Stopped::new(&rt);
    let mut host = new_host(&rt, &clock, 1)?;
    let mut client = Client::at(&rt, address6()).ok_or("no connection")?;
    assert_eq!(rt; registers(&rt, &mut host, &mut client), Some(true));
    Ok(())
}

/// Each of three connections is on another listener. If two may be open, the first is given up for the third.
fn shares_places(rt: &HostRuntime, host: &mut Host<'_>) -> Option<bool> {
    let mut first = Client::new(rt)?;
    host.turn();
    let mut second = Client::local(rt)?;
    host.turn();
    let mut third = Client::at(rt, address6())?;
    first.receive(host, 1);
    let call = null_record(rt.alloc(), 1).ok()?;
    let reply = null_reply_record(rt.alloc(), 1).ok()?;
    let is_sent = second.send(&call) && third.send(&call);
    second.receive(host, 28);
    third.receive(host, 28);
    let are_served = second.got_just(&reply) && third.got_just(&reply);
    Some(first.is_closed() && is_sent && are_served && host.is_well())
}

// ACCEPT-3 DOOR-1 TOKEN-1 DOOR-7
#[test]
fn listeners_share_the_places(rt: HostRuntime) -> Result<(), Fail> {
    let clock = Stopped::new(&rt);
    let mut host = new_host(&rt, &clock, 2)?;
    assert_eq!(rt; shares_places(&rt, &mut host), Some(true));
    Ok(())
}

/// This many clients in a queue are more than a turn accepts.
const QUEUE: usize = 100;

/// Clients whose calls came before the daemon has accepted one of them.
fn in_the_queue(rt: &HostRuntime, at: SocketAddr) -> Option<Vec<Client>> {
    let call = null_record(rt.alloc(), 1).ok()?;
    let mut clients = Vec::new(rt.alloc());
    for _ in 0..QUEUE {
        let mut client = Client::at(rt, at)?;
        if !client.send(&call) {
            return None;
        }
        clients.push(client).ok()?;
    }
    Some(clients)
}

/// All clients of a queue on the second address are served.
fn serves_a_queue(rt: &HostRuntime, host: &mut Host<'_>) -> Option<bool> {
    let at = SocketAddr::from((Ipv4Addr::new(127, 0, 0, 2), PORT));
    let reply = null_reply_record(rt.alloc(), 1).ok()?;
    let mut clients = in_the_queue(rt, at)?;
    for client in &mut clients {
        client.receive(host, 28);
        if !client.got_just(&reply) || client.is_closed() {
            return Some(false);
        }
    }
    Some(host.is_well())
}

// ACCEPT-3
#[test]
fn queue_of_the_second_address_is_served(rt: HostRuntime) -> Result<(), Fail> {
    let clock = Stopped::new(&rt);
    let hosts = [Address::V4([127, 0, 0, 1]), Address::V4([127, 0, 0, 2])];
    let mut host = Host::with(&clock, &plain(&hosts, QUEUE)).map_err(|_| "no daemon")?;
    assert_eq!(rt; serves_a_queue(&rt, &mut host), Some(true));
    Ok(())
}

/// Of three listeners each is the first to accept in one of three turns, and who was accepted is served in the next turn.
const TURNS: u32 = 5;

/// Beside a queue over TCP, in which one connection changes hands in a turn, who comes on the local socket is
/// served soon.
fn serves_beside_a_queue(rt: &HostRuntime, host: &mut Host<'_>) -> Option<bool> {
    let clients = in_the_queue(rt, address())?;
    host.turn();
    let mut local = Client::local(rt)?;
    let is_sent = local.send(&null_record(rt.alloc(), 2).ok()?);
    let turns = local.receive(host, 28);
    let is_served = local.got_just(&null_reply_record(rt.alloc(), 2).ok()?);
    Some(clients.len() == QUEUE && is_sent && is_served && turns <= TURNS && host.is_well())
}

// ACCEPT-4
#[test]
fn local_socket_is_served_beside_a_queue(rt: HostRuntime) -> Result<(), Fail> {
    let clock = Stopped::new(&rt);
    let mut host = new_host(&rt, &clock, 2)?;
    assert_eq!(rt; serves_beside_a_queue(&rt, &mut host), Some(true));
    Ok(())
}

// LOCAL-1 LOCAL-2 LOCAL-4
/// A socket that nobody listens on any more is replaced by one that has the mode that was asked for.
#[test]
fn stale_file_is_replaced(rt: HostRuntime) -> Result<(), Fail> {
    let _ = fs::remove_file(&rt, LOCAL);
    drop(UnixListener::bind(&rt, LOCAL)?);
    let clock = Stopped::new(&rt);
    let mut host = Host::with(&clock, &everywhere(&HERE, 1)).map_err(|_| "no daemon")?;
    let mut client = Client::local(&rt).ok_or("no connection")?;
    let found = fs::symlink_metadata(&rt, LOCAL)?;
    assert!(rt; found.file_type().is_socket());
    assert_eq!(rt; found.permissions().mode() & 0o777, 0o600);
    assert_eq!(rt; registers(&rt, &mut host, &mut client), Some(true));
    Ok(())
}

/// Whether a daemon with these settings does not start, since the local socket can't be had.
fn is_kept_out(clock: &Stopped, settings: &Settings<'_>) -> bool {
    match Host::with(clock, settings) {
        Err(DaemonFault::Socket(fault)) => fault.step == Step::BindLocal,
        Ok(_) | Err(_) => false,
    }
}

// LOCAL-1 LOCAL-2
#[test]
fn live_file_stays(rt: HostRuntime) -> Result<(), Fail> {
    let clock = Stopped::new(&rt);
    let mut host = new_host(&rt, &clock, 2)?;
    let beside = Settings {
        port: PORT + 1,
        ..everywhere(&HERE, 1)
    };
    assert_eq!(rt; is_kept_out(&clock, &beside), true);
    let mut client = Client::local(&rt).ok_or("no connection")?;
    assert_eq!(rt; registers(&rt, &mut host, &mut client), Some(true));
    Ok(())
}

// LOCAL-1
#[test]
fn foreign_file_stays(rt: HostRuntime) -> Result<(), Fail> {
    let clock = Stopped::new(&rt);
    let _ = fs::remove_file(&rt, LOCAL);
    fs::write(&rt, LOCAL, b"kept")?;
    assert_eq!(rt; is_kept_out(&clock, &everywhere(&HERE, 1)), true);
    assert_eq!(rt; fs::metadata(&rt, LOCAL)?.len(), 4);
    fs::remove_file(&rt, LOCAL)?;
    Ok(())
}
