//! A daemon and a client in one process, on port 20113 of 127.0.0.1. The client never waits: the test itself takes the
//! daemon's turns.
use rb_address::{Host, Network};
use rb_daemon::{
    Announced, Daemon, Few, Handed, Limits, Logged, Reserved, Settings, Starts, Terms, Turns,
};
use rb_inside::Inside;
use std::alloc::AllocError;
use std::io::{Read, Write};
use std::net::{Ipv4Addr, SocketAddr, TcpStream};
use std::test::Fail;

const PORT: u16 = 20_113;

/// The most turns that are taken for the reply.
const TURNS: u32 = 100;

/// Milliseconds: what comes over the loopback is there long before.
const WAIT: u64 = 20;

/// DUMP of version 2 in a last fragment of 40 bytes.
const CALL: [u32; 11] = [0x8000_0028, 1, 0, 2, 100_000, 2, 4, 0, 0, 0, 0];

/// The header of a last fragment of 148 bytes, and the head of the reply.
const HEAD: [u32; 7] = [0x8000_0094, 1, 1, 0, 0, 0, 0];

/// Version and protocol of each own row.
const ROWS: [(u32, u32); 6] = [(4, 6), (3, 6), (2, 6), (4, 17), (3, 17), (2, 17)];

fn push_words(bytes: &mut Vec<u8>, words: &[u32]) -> Result<(), AllocError> {
    for word in words {
        bytes.extend_from_slice(&word.to_be_bytes())?;
    }
    Ok(())
}

fn reply(rt: &HostRuntime) -> Result<Vec<u8>, AllocError> {
    let mut bytes = Vec::new(rt.alloc());
    push_words(&mut bytes, &HEAD)?;
    for (vers, prot) in ROWS {
        push_words(&mut bytes, &[1, 100_000, vers, prot, u32::from(PORT)])?;
    }
    push_words(&mut bytes, &[0])?;
    Ok(bytes)
}

pub fn daemon_of(
    rt: &HostRuntime,
    port: u16,
    conns: usize,
) -> Option<Daemon<'_, HostRuntime, HostRuntime, Inside<HostRuntime>>> {
    let limits = Limits {
        conns,
        rows: 8,
        forwards: 0,
    };
    let here = Host::V4([127, 0, 0, 1]);
    let mut bind = Few::new(here);
    bind.push(here);
    let settings = Settings {
        bind,
        from: Few::new(Network::read(b"127.0.0.1")?),
        loopback6: false,
        local: None,
        believe_claims: true,
        announce: Announced {
            inet: None,
            inet6: None,
        },
        port,
        limits,
        terms: Terms::OPEN,
        reserve: Reserved::new(),
        udp_rate: None,
        record_limit: 0,
        keep: None,
        log: Logged::Nothing,
        open_files: u64::MAX,
    };
    Daemon::new(rt.alloc(), rt, rt, &settings, &[], Handed::none(rt.alloc())).ok()
}

/// Takes turns until something has come, and says how many bytes.
pub fn receive(
    rt: &HostRuntime,
    daemon: &mut Daemon<'_, HostRuntime, HostRuntime, Inside<HostRuntime>>,
    stream: &mut TcpStream,
    got: &mut [u8; 256],
) -> usize {
    for _ in 0..TURNS {
        if daemon.turn(rt, Some(WAIT)).is_err() {
            return 0;
        }
        if let Ok(len) = stream.read(got) {
            return len;
        }
    }
    0
}

fn answers_dump(
    rt: &HostRuntime,
    daemon: &mut Daemon<'_, HostRuntime, HostRuntime, Inside<HostRuntime>>,
) -> Option<bool> {
    let mut stream = TcpStream::connect(rt, SocketAddr::from((Ipv4Addr::LOCALHOST, PORT))).ok()?;
    stream.set_nonblocking(true).ok()?;
    let mut call = Vec::new(rt.alloc());
    push_words(&mut call, &CALL).ok()?;
    let wanted = reply(rt).ok()?;
    stream.write_all(&call).ok()?;
    let mut got = [0; 256];
    let len = receive(rt, daemon, &mut stream, &mut got);
    Some(len == wanted.len() && got.starts_with(&wanted))
}

#[test]
fn own_rows_over_tcp(rt: HostRuntime) -> Result<(), Fail> {
    let mut daemon = daemon_of(&rt, PORT, 1).ok_or("no daemon")?;
    assert_eq!(rt; answers_dump(&rt, &mut daemon), Some(true));
    Ok(())
}
