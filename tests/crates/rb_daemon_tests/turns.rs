//! The daemon of a test, whose turns the test itself takes, and whose clocks it sets.
use crate::tables::Tables;
use rb_address::{Host as Address, Network};
use rb_daemon::{
    Announced, Daemon, DaemonFault, Few, Handed, Limits, LocalSocket, Logged, Reserved, Settings,
    Shortage, SocketFault, Starts, Terms, Turns,
};
use rb_inside::Inside;
use std::cell::Cell;
use std::fs::Files;
use std::io;
use std::net::{Ipv4Addr, Ipv6Addr, Net, SocketAddr};
use std::random::RandomSource;
use std::rt::Clock;
use std::time::Duration;

pub(crate) const PORT: u16 = 20_111;

/// 127.0.0.1 alone.
pub(crate) const HERE: [Address; 1] = [Address::V4([127, 0, 0, 1])];

/// Where the local socket of a test is, in the folder that the test runs in.
pub(crate) const LOCAL: &str = "rb_daemon_tests.sock";

/// Milliseconds: what comes over the loopback is there long before.
pub(crate) const WAIT: u64 = 20;

/// Clocks that stand still until they are moved, and the system.
#[derive(Drop)]
pub(crate) struct Stopped {
    rt: HostRuntime,
    /// Milliseconds since the start of 1970.
    wall: Cell<u64>,
    /// Milliseconds.
    monotonic: Cell<u64>,
    /// How long the daemon slept, in milliseconds.
    slept: Cell<u64>,
}

impl Stopped {
    pub(crate) fn new(rt: &HostRuntime) -> Stopped {
        Stopped::at(rt, 1_000_000, 5_000)
    }

    /// At these moments, in milliseconds.
    pub(crate) fn at(rt: &HostRuntime, wall: u64, monotonic: u64) -> Stopped {
        Stopped {
            rt: *rt,
            wall: Cell::new(wall),
            monotonic: Cell::new(monotonic),
            slept: Cell::new(0),
        }
    }

    /// How long the daemon slept, in milliseconds.
    pub(crate) fn slept(&self) -> u64 {
        self.slept.get()
    }

    /// So much time passes.
    pub(crate) fn advance(&self, millis: u64) {
        self.wall.set(self.wall.get().saturating_add(millis));
        self.monotonic
            .set(self.monotonic.get().saturating_add(millis));
    }

    /// Somebody sets the wall clock.
    pub(crate) fn set_wall(&self, millis: u64) {
        self.wall.set(millis);
    }
}

impl Clock for Stopped {
    fn monotonic(&self) -> io::Result<Duration> {
        Ok(Duration::from_millis(self.monotonic.get()))
    }

    fn since_1970(&self) -> io::Result<Duration> {
        Ok(Duration::from_millis(self.wall.get()))
    }

    fn sleep(&self, duration: Duration) {
        let millis = u64::try_from(duration.as_millis()).unwrap_or(u64::MAX);
        self.slept.set(self.slept.get().saturating_add(millis));
    }
}

/// The daemon, and whether each of its turns was without a fault.
#[derive(Drop)]
pub(crate) struct Host<'a> {
    daemon: Daemon<'a, Stopped, Tables, Inside<Tables>>,
    /// It has the kernel's tables of connections.
    tables: Tables,
    is_well: bool,
}

pub(crate) fn address() -> SocketAddr {
    SocketAddr::from((Ipv4Addr::LOCALHOST, PORT))
}

pub(crate) fn address6() -> SocketAddr {
    SocketAddr::from((Ipv6Addr::LOCALHOST, PORT))
}

/// Hosts to listen on, at most 16.
fn all_of(hosts: &[Address]) -> Few<Address> {
    let mut few = Few::new(HERE[0]);
    for host in hosts {
        few.push(*host);
    }
    few
}

/// A daemon that believes what callers claim, with room for this many connections.
pub(crate) fn plain(hosts: &[Address], conns: usize) -> Settings<'static> {
    Settings {
        bind: all_of(hosts),
        from: Few::new(Network::read(b"127.0.0.1").unwrap()),
        loopback6: false,
        local: None,
        believe_claims: true,
        announce: Announced {
            inet: Some([127, 0, 0, 1]),
            inet6: None,
        },
        port: PORT,
        limits: Limits {
            conns,
            rows: 300,
            forwards: 4,
        },
        terms: Terms::OPEN,
        reserve: Reserved::new(),
        udp_rate: None,
        record_limit: 0,
        keep: None,
        log: Logged::Nothing,
        open_files: u64::MAX,
    }
}

/// A daemon that also listens on [::1] and on the local socket.
pub(crate) fn everywhere(hosts: &[Address], conns: usize) -> Settings<'static> {
    Settings {
        loopback6: true,
        local: Some(LocalSocket {
            path: LOCAL,
            mode: 0o600,
        }),
        ..plain(hosts, conns)
    }
}

impl<'a> Host<'a> {
    /// A daemon with room for this many connections.
    pub(crate) fn new(clock: &'a Stopped, conns: usize) -> Option<Host<'a>> {
        Host::with(clock, &plain(&HERE, conns)).ok()
    }

    pub(crate) fn with(
        clock: &'a Stopped,
        settings: &Settings<'_>,
    ) -> Result<Host<'a>, DaemonFault> {
        Host::over(clock, &clock.rt, settings)
    }

    /// A daemon over this system.
    pub(crate) fn over<H: Files + Net + RandomSource>(
        clock: &'a Stopped,
        system: &H,
        settings: &Settings<'_>,
    ) -> Result<Host<'a>, DaemonFault> {
        let alloc = clock.rt.alloc();
        let daemon = Daemon::new(alloc, system, clock, settings, &[], Handed::none(alloc))?;
        Ok(Host {
            daemon,
            tables: Tables::new(&clock.rt),
            is_well: true,
        })
    }

    /// How often the file of kept rows was looked at: once for each write that adds lines.
    pub(crate) fn rows_looks(&self) -> u32 {
        self.tables.rows_looks.get()
    }

    pub(crate) fn shortage(&self) -> Option<Shortage> {
        self.daemon.shortage()
    }

    pub(crate) fn take_fault(&mut self) -> Option<SocketFault> {
        self.daemon.take_news(&self.tables.rt).fault
    }

    pub(crate) fn take_local_change(&mut self) -> bool {
        self.daemon.take_news(&self.tables.rt).is_local_changed
    }

    /// From here on the kernel's table of connections over IPv4 is this file.
    pub(crate) fn show(&mut self, table: &'static str) {
        self.tables.inet = Some(table);
    }

    /// The lines of the log that were not taken yet.
    pub(crate) fn take_log(&mut self) -> Option<Vec<u8>> {
        let mut lines = Vec::new(self.tables.rt.alloc());
        self.daemon.write_log(&mut lines).ok()?;
        Some(lines)
    }

    pub(crate) fn turn(&mut self) {
        if self.daemon.turn(&self.tables, Some(WAIT)).is_err() {
            self.is_well = false;
        }
    }

    pub(crate) fn is_well(&self) -> bool {
        self.is_well
    }
}
