//! A client that asks a daemon in the same process. Its sockets never wait, since the daemon's turns are taken by the same
//! thread.
use rb_address::{Host, Network, Transport};
use rb_daemon::{
    Announced, Daemon, Few, Handed, Limits, LocalSocket, Logged, Reserved, Settings, Starts, Terms,
    Turns,
};
use rb_inside::Inside;
use rb_plans::{Aim, Answer, Course, End, Stage, asked, begin, called_at, next};
use rb_show::{
    Ask, Form, InfoFault, Shown, show_datagram, show_reply, write_call, write_marked_call,
};
use std::io::{Read, Write};
use std::net::{Ipv4Addr, Ipv6Addr, SocketAddr, TcpStream, UdpSocket};

/// The port of the daemon that is asked: 78 times 256, and 150.
pub const PORT: u16 = 20_118;

/// Where its local socket is, in the folder that the tests run in.
pub const LOCAL: &str = "rb_info_tests.sock";

/// The most turns that are taken for an answer.
const TURNS: u32 = 100;

/// Milliseconds: what comes over the loopback is there long before.
const WAIT: u64 = 20;

/// The most questions that a course has here.
const QUESTIONS: u32 = 16;

pub fn portmapper() -> SocketAddr {
    SocketAddr::from((Ipv4Addr::LOCALHOST, PORT))
}

pub fn portmapper6() -> SocketAddr {
    SocketAddr::from((Ipv6Addr::LOCALHOST, PORT))
}

/// A daemon on 127.0.0.1, [::1] and the local socket, which forwards calls.
pub fn daemon_everywhere(
    rt: &HostRuntime,
) -> Option<Daemon<'_, HostRuntime, HostRuntime, Inside<HostRuntime>>> {
    let here = Host::V4([127, 0, 0, 1]);
    let mut bind = Few::new(here);
    bind.push(here);
    let settings = Settings {
        bind,
        from: Few::new(Network::read(b"127.0.0.1")?),
        loopback6: true,
        local: Some(LocalSocket {
            path: LOCAL,
            mode: 0o600,
        }),
        believe_claims: true,
        announce: Announced {
            inet: None,
            inet6: None,
        },
        port: PORT,
        limits: Limits {
            conns: 4,
            rows: 16,
            forwards: 1,
        },
        terms: Terms::OPEN,
        reserve: Reserved::new(),
        udp_rate: None,
        record_limit: 0,
        keep: None,
        log: Logged::Nothing,
        open_files: u64::MAX,
    };
    Daemon::new(rt.alloc(), rt, rt, &settings, &[], Handed::none(rt.alloc())).ok()
}

fn answer_of(shown: Result<Shown, InfoFault>) -> Option<Answer> {
    match shown {
        Ok(Shown::Port(port)) => Some(Answer::Port(port)),
        Ok(Shown::Address(address)) => Some(Answer::Address(address)),
        Ok(Shown::Null) => Some(Answer::Ready),
        Err(InfoFault::Refused(head)) => Some(Answer::Refused(head.status)),
        _ => None,
    }
}

/// A client, and what it has shown.
#[derive(Drop)]
pub struct Client<'r, 'f> {
    rt: &'r HostRuntime,
    form: Form<'f>,
    shown: Vec<u8>,
}

impl<'r, 'f> Client<'r, 'f> {
    pub fn new(rt: &'r HostRuntime, form: Form<'f>) -> Client<'r, 'f> {
        Client {
            rt,
            form,
            shown: Vec::new(rt.alloc()),
        }
    }

    pub fn has_shown(&self, text: &[u8]) -> bool {
        self.shown.as_slice() == text
    }

    /// What these bytes of a reply tell; none if more of it must still come.
    fn show(&mut self, ask: &Ask, xid: u32, got: &[u8]) -> Option<Result<Shown, InfoFault>> {
        let mut lines = Vec::new(self.rt.alloc());
        match show_reply(self.rt.alloc(), ask, self.form, xid, got, &mut lines) {
            Err(InfoFault::CutOff) => None,
            answer => {
                self.shown.extend_from_slice(&lines).ok()?;
                Some(answer)
            }
        }
    }

    /// Asks over a connection that is there.
    pub fn ask_stream<S: Read + Write>(
        &mut self,
        daemon: &mut Daemon<'_, HostRuntime, HostRuntime, Inside<HostRuntime>>,
        stream: &mut S,
        ask: &Ask,
        xid: u32,
    ) -> Option<Result<Shown, InfoFault>> {
        let mut call = Vec::new(self.rt.alloc());
        write_marked_call(self.rt.alloc(), ask, xid, &mut call).ok()?;
        stream.write_all(&call).ok()?;
        let mut got = Vec::new(self.rt.alloc());
        let mut room = [0; 1024];
        for _ in 0..TURNS {
            daemon.turn(self.rt, Some(WAIT)).ok()?;
            let len = stream.read(&mut room).unwrap_or(0);
            got.extend_from_slice(room.get(..len)?).ok()?;
            let answer = self.show(ask, xid, &got);
            if answer.is_some() {
                return answer;
            }
        }
        None
    }

    fn ask_datagram(
        &mut self,
        daemon: &mut Daemon<'_, HostRuntime, HostRuntime, Inside<HostRuntime>>,
        address: SocketAddr,
        ask: &Ask,
        xid: u32,
    ) -> Option<Result<Shown, InfoFault>> {
        let caller = Caller::toward(self.rt, address)?;
        caller.ask(self.rt, ask, xid, address)?;
        let reply = caller.receive(self.rt, daemon)?;
        let mut lines = Vec::new(self.rt.alloc());
        let answer = show_datagram(self.rt.alloc(), ask, self.form, xid, &reply, &mut lines);
        self.shown.extend_from_slice(&lines).ok()?;
        Some(answer)
    }

    /// Asks at a place of a host.
    fn ask_at(
        &mut self,
        daemon: &mut Daemon<'_, HostRuntime, HostRuntime, Inside<HostRuntime>>,
        at: (Transport, SocketAddr),
        ask: &Ask,
        xid: u32,
    ) -> Option<Result<Shown, InfoFault>> {
        let (transport, address) = at;
        match transport {
            Transport::Tcp => {
                let mut stream = TcpStream::connect(self.rt, address).ok()?;
                stream.set_nonblocking(true).ok()?;
                self.ask_stream(daemon, &mut stream, ask, xid)
            }
            Transport::Udp => self.ask_datagram(daemon, address, ask, xid),
        }
    }

    /// Asks the portmapper over TCP.
    pub fn ask(
        &mut self,
        daemon: &mut Daemon<'_, HostRuntime, HostRuntime, Inside<HostRuntime>>,
        portmapper: SocketAddr,
        ask: &Ask,
    ) -> Option<Result<Shown, InfoFault>> {
        self.ask_at(daemon, (Transport::Tcp, portmapper), ask, 1)
    }

    /// Follows a course to its end.
    pub fn follow(
        &mut self,
        daemon: &mut Daemon<'_, HostRuntime, HostRuntime, Inside<HostRuntime>>,
        portmapper: SocketAddr,
        course: &Course,
        aim: Aim,
    ) -> Option<End> {
        let mut stage = begin(course, aim);
        for xid in 1..QUESTIONS {
            let Some((place, ask)) = asked(course, stage) else {
                break;
            };
            let shown = self.ask_at(daemon, called_at(place, portmapper), &ask, xid)?;
            stage = next(course, stage, answer_of(shown)?).stage;
        }
        match stage {
            Stage::End(end) => Some(end),
            _ => None,
        }
    }
}

/// A socket for datagrams, on a port of the loopback.
#[derive(Drop)]
pub struct Caller {
    socket: UdpSocket,
}

impl Caller {
    fn at(rt: &HostRuntime, address: SocketAddr) -> Option<Caller> {
        let socket = UdpSocket::bind(rt, address).ok()?;
        socket.set_nonblocking(true).ok()?;
        Some(Caller { socket })
    }

    /// Of IPv4, on any port if this is 0.
    pub fn new(rt: &HostRuntime, port: u16) -> Option<Caller> {
        Caller::at(rt, SocketAddr::from((Ipv4Addr::LOCALHOST, port)))
    }

    /// Of the family of an address that it sends to, on any port.
    fn toward(rt: &HostRuntime, address: SocketAddr) -> Option<Caller> {
        let own = match address {
            SocketAddr::V4(_) => SocketAddr::from((Ipv4Addr::LOCALHOST, 0)),
            SocketAddr::V6(_) => SocketAddr::from((Ipv6Addr::LOCALHOST, 0)),
        };
        Caller::at(rt, own)
    }

    /// Sends the words as a datagram.
    pub fn send(&self, rt: &HostRuntime, words: &[u32], to: SocketAddr) -> Option<()> {
        let mut bytes = Vec::new(rt.alloc());
        for word in words {
            bytes.extend_from_slice(&word.to_be_bytes()).ok()?;
        }
        self.socket.send_to(&bytes, to).ok()?;
        Some(())
    }

    /// Sends the call that asks.
    pub fn ask(&self, rt: &HostRuntime, ask: &Ask, xid: u32, to: SocketAddr) -> Option<()> {
        let mut call = Vec::new(rt.alloc());
        write_call(rt.alloc(), ask, xid, &mut call).ok()?;
        self.socket.send_to(&call, to).ok()?;
        Some(())
    }

    /// Takes turns until a datagram came: its first word and its sender.
    pub fn first_word(
        &self,
        rt: &HostRuntime,
        daemon: &mut Daemon<'_, HostRuntime, HostRuntime, Inside<HostRuntime>>,
    ) -> Option<(u32, SocketAddr)> {
        let mut room = [0; 1024];
        for _ in 0..TURNS {
            daemon.turn(rt, Some(WAIT)).ok()?;
            if let Ok((_, sender)) = self.socket.recv_from(&mut room) {
                let [a, b, c, d, ..] = room;
                return Some((u32::from_be_bytes([a, b, c, d]), sender));
            }
        }
        None
    }

    /// Takes turns until a datagram came.
    pub fn receive(
        &self,
        rt: &HostRuntime,
        daemon: &mut Daemon<'_, HostRuntime, HostRuntime, Inside<HostRuntime>>,
    ) -> Option<Vec<u8>> {
        let mut room = [0; 1024];
        for _ in 0..TURNS {
            daemon.turn(rt, Some(WAIT)).ok()?;
            if let Ok((len, _)) = self.socket.recv_from(&mut room) {
                let mut datagram = Vec::new(rt.alloc());
                datagram.extend_from_slice(room.get(..len)?).ok()?;
                return Some(datagram);
            }
        }
        None
    }
}
