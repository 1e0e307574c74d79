//! Sockets of a test. They never wait, since the daemon's turns are taken by the same thread.

use crate::turns::{Host, LOCAL, address};
use std::io;
use std::io::{ErrorKind, Read, Write};
use std::net::{Ipv4Addr, Ipv6Addr, Shutdown, SocketAddr, TcpStream, UdpSocket};
use std::os::unix::net::UnixStream;

/// The most turns that a test takes for one answer.
const TURNS: u32 = 100;

/// The most reads at a time.
const READS: u32 = 4096;

/// The most bytes that a client keeps.
const ROOM: usize = 4096;

/// The most bytes of a datagram that comes: as many as a reply has over UDP, or a forwarded call.
const LONGEST: usize = 9_000;

/// A connection to one of the daemon's listeners.
#[derive(Drop)]
enum Stream {
    Tcp(TcpStream),
    Local(UnixStream),
}

impl Stream {
    fn read(&mut self, room: &mut [u8]) -> io::Result<usize> {
        match self {
            Stream::Tcp(stream) => stream.read(room),
            Stream::Local(stream) => stream.read(room),
        }
    }
}

/// A connection, and what came on it.
#[derive(Drop)]
pub(crate) struct Client {
    stream: Stream,
    got: [u8; ROOM],
    len: usize,
    is_closed: bool,
}

impl Client {
    pub(crate) fn new(rt: &HostRuntime) -> Option<Client> {
        Client::at(rt, address())
    }

    /// Over TCP to this address.
    pub(crate) fn at(rt: &HostRuntime, address: SocketAddr) -> Option<Client> {
        let stream = TcpStream::connect(rt, address).ok()?;
        stream.set_nonblocking(true).ok()?;
        Some(Client::of(Stream::Tcp(stream)))
    }

    /// On the local socket.
    pub(crate) fn local(rt: &HostRuntime) -> Option<Client> {
        let stream = UnixStream::connect(rt, LOCAL).ok()?;
        stream.set_nonblocking(true).ok()?;
        Some(Client::of(Stream::Local(stream)))
    }

    fn of(stream: Stream) -> Client {
        Client {
            stream,
            got: [0; ROOM],
            len: 0,
            is_closed: false,
        }
    }

    /// Its own end of a connection over TCP.
    pub(crate) fn own_end(&self) -> Option<SocketAddr> {
        match &self.stream {
            Stream::Tcp(stream) => stream.local_addr().ok(),
            Stream::Local(_) => None,
        }
    }

    /// Ends what it sends, and goes on to read. Whether that was done.
    pub(crate) fn end(&self) -> bool {
        match &self.stream {
            Stream::Tcp(stream) => stream.shutdown(Shutdown::Write).is_ok(),
            Stream::Local(stream) => stream.shutdown(Shutdown::Write).is_ok(),
        }
    }

    /// Whether all of the bytes went out.
    pub(crate) fn send(&mut self, bytes: &[u8]) -> bool {
        match &mut self.stream {
            Stream::Tcp(stream) => stream.write_all(bytes).is_ok(),
            Stream::Local(stream) => stream.write_all(bytes).is_ok(),
        }
    }

    /// Takes turns until this many bytes came, or the daemon closed the connection, and says how many turns.
    pub(crate) fn receive(&mut self, host: &mut Host<'_>, want: usize) -> u32 {
        for turns in 1..=TURNS {
            host.turn();
            self.read();
            if self.len >= want || self.is_closed {
                return turns;
            }
        }
        TURNS
    }

    /// Takes turns until this many bytes came, or the daemon closed the connection, and says how many came. It keeps none
    /// of them.
    pub(crate) fn read_through(&mut self, host: &mut Host<'_>, want: usize) -> usize {
        let mut count = 0usize;
        for _ in 0..TURNS {
            host.turn();
            count = count.saturating_add(self.discard());
            if count >= want || self.is_closed {
                break;
            }
        }
        count
    }

    /// Reads what has come, and says how many bytes that is.
    pub(crate) fn discard(&mut self) -> usize {
        let mut count = 0usize;
        for _ in 0..READS {
            match self.stream.read(&mut self.got) {
                Ok(0) => {
                    self.is_closed = true;
                    break;
                }
                Ok(n) => count = count.saturating_add(n),
                Err(error) => {
                    self.is_closed = error.kind() != ErrorKind::WouldBlock;
                    break;
                }
            }
        }
        count
    }

    /// Takes a turn, after which nothing more has come.
    pub(crate) fn receive_nothing(&mut self, host: &mut Host<'_>) -> bool {
        let before = self.len;
        host.turn();
        self.read();
        self.len == before && !self.is_closed
    }

    /// Reads what has come.
    pub(crate) fn read(&mut self) {
        match self.stream.read(&mut self.got[self.len..]) {
            Ok(0) => self.is_closed = true,
            Ok(n) => self.len += n,
            Err(_) => {}
        }
    }

    /// Whether these bytes came, and no others.
    pub(crate) fn got_just(&self, bytes: &[u8]) -> bool {
        self.len == bytes.len() && self.got.starts_with(bytes)
    }

    /// The bytes that came.
    pub(crate) fn got(&self) -> &[u8] {
        &self.got[..self.len]
    }

    pub(crate) fn is_closed(&self) -> bool {
        self.is_closed
    }
}

/// A socket for datagrams, and the last one that came.
#[derive(Drop)]
pub(crate) struct Caller {
    socket: UdpSocket,
    got: [u8; LONGEST],
    len: usize,
    from: SocketAddr,
}

impl Caller {
    /// At a port, or at one of the system's choice.
    pub(crate) fn new(rt: &HostRuntime, port: u16) -> Option<Caller> {
        let own = SocketAddr::from((Ipv4Addr::LOCALHOST, port));
        let socket = UdpSocket::bind(rt, own).ok()?;
        socket.set_nonblocking(true).ok()?;
        Some(Caller {
            socket,
            got: [0; LONGEST],
            len: 0,
            from: own,
        })
    }

    /// At a port of the system's choice, of the family of this address.
    pub(crate) fn for_host(rt: &HostRuntime, to: SocketAddr) -> Option<Caller> {
        let own = match to {
            SocketAddr::V4(_) => SocketAddr::from((Ipv4Addr::UNSPECIFIED, 0)),
            SocketAddr::V6(_) => SocketAddr::from((Ipv6Addr::UNSPECIFIED, 0)),
        };
        let socket = UdpSocket::bind(rt, own).ok()?;
        socket.set_nonblocking(true).ok()?;
        Some(Caller {
            socket,
            got: [0; LONGEST],
            len: 0,
            from: own,
        })
    }

    /// Whether the datagram went out.
    pub(crate) fn send(&self, bytes: &[u8]) -> bool {
        self.send_to(bytes, address())
    }

    /// Whether the datagram went out to this address.
    pub(crate) fn send_to(&self, bytes: &[u8], to: SocketAddr) -> bool {
        self.socket.send_to(bytes, to).is_ok()
    }

    /// Whether the last datagram came from this address.
    pub(crate) fn came_from(&self, from: SocketAddr) -> bool {
        self.from == from
    }

    /// Takes turns until a datagram has come.
    pub(crate) fn receive(&mut self, host: &mut Host<'_>) {
        for _ in 0..TURNS {
            if !self.receive_nothing(host) {
                break;
            }
        }
    }

    /// Takes a turn, after which no datagram has come.
    pub(crate) fn receive_nothing(&mut self, host: &mut Host<'_>) -> bool {
        host.turn();
        !self.receive_next()
    }

    /// Whether a datagram has come, without a turn.
    pub(crate) fn receive_next(&mut self) -> bool {
        match self.socket.recv_from(&mut self.got) {
            Ok((len, from)) => {
                self.len = len;
                self.from = from;
                true
            }
            Err(_) => {
                self.len = 0;
                false
            }
        }
    }

    /// Whether the last datagram was of these bytes.
    pub(crate) fn got_just(&self, bytes: &[u8]) -> bool {
        self.len == bytes.len() && self.got.starts_with(bytes)
    }

    /// Whether bytes went back to where the last datagram came from.
    pub(crate) fn answer(&self, bytes: &[u8]) -> bool {
        self.socket.send_to(bytes, self.from).is_ok()
    }

    /// The first four bytes of the last datagram.
    pub(crate) fn first_word(&self) -> u32 {
        let [a, b, c, d, ..] = self.got;
        u32::from_be_bytes([a, b, c, d])
    }

    /// The first four bytes of the last datagram, of this many in all.
    pub(crate) fn first_word_of(&self, len: usize) -> Option<u32> {
        let [a, b, c, d, ..] = self.got;
        if self.len == len {
            Some(u32::from_be_bytes([a, b, c, d]))
        } else {
            None
        }
    }
}
