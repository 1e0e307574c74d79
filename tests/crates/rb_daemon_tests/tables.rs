//! The system's files as the daemon of a test reads them: with a table of connections that the test wrote, if it has one, and
//! without those of local sockets, if these are sockets of TCP (`faults.rs`).
use crate::keeping::ROWS;
use std::alloc::Allocator;
use std::cell::Cell;
use std::fs::{Files, Metadata, OpenOptions, Permissions};
use std::io;
use std::io::ErrorKind;
use std::os::fd::BorrowedFd;
use std::os::unix::net::SocketAddr;

const INET: &str = "/proc/self/net/tcp";

const INET6: &str = "/proc/self/net/tcp6";

#[derive(Drop)]
pub(crate) struct Tables {
    pub(crate) rt: HostRuntime,
    /// What it shows in place of its table of IPv4. There is none of IPv6 then.
    pub(crate) inet: Option<&'static str>,
    /// Whether local sockets have files.
    pub(crate) has_local: bool,
    /// How often the file of kept rows was looked at.
    pub(crate) rows_looks: Cell<u32>,
}

impl Tables {
    /// The system as it is.
    pub(crate) fn new(rt: &HostRuntime) -> Tables {
        Tables {
            rt: *rt,
            inet: None,
            has_local: true,
            rows_looks: Cell::new(0),
        }
    }
}

impl Files for Tables {
    type File = <HostRuntime as Files>::File;

    type Dir = <HostRuntime as Files>::Dir;

    fn open_file(&self, how: &OpenOptions, path: &str) -> io::Result<Self::File> {
        match self.inet {
            Some(inet) if path == INET => self.rt.open_file(how, inet),
            Some(_) if path == INET6 => Err(io::Error::from(ErrorKind::NotFound)),
            _ => self.rt.open_file(how, path),
        }
    }

    fn open_dir(&self, path: &str) -> io::Result<Self::Dir> {
        self.rt.open_dir(path)
    }

    fn metadata(&self, path: &str) -> io::Result<Metadata> {
        self.rt.metadata(path)
    }

    fn symlink_metadata(&self, path: &str) -> io::Result<Metadata> {
        if path == ROWS {
            self.rows_looks.set(self.rows_looks.get().saturating_add(1));
        }
        if self.has_local {
            self.rt.symlink_metadata(path)
        } else {
            Err(io::Error::from(ErrorKind::NotFound))
        }
    }

    fn copy(&self, from: &str, to: &str) -> io::Result<u64> {
        self.rt.copy(from, to)
    }

    fn rename(&self, from: &str, to: &str) -> io::Result<()> {
        self.rt.rename(from, to)
    }

    fn remove_file(&self, path: &str) -> io::Result<()> {
        self.rt.remove_file(path)
    }

    fn create_dir(&self, path: &str) -> io::Result<()> {
        self.rt.create_dir(path)
    }

    fn remove_dir(&self, path: &str) -> io::Result<()> {
        self.rt.remove_dir(path)
    }

    fn remove_dir_all<B: Allocator>(&self, alloc: B, path: &str) -> io::Result<()> {
        self.rt.remove_dir_all(alloc, path)
    }

    fn set_permissions(&self, path: &str, perm: Permissions) -> io::Result<()> {
        if self.has_local {
            self.rt.set_permissions(path, perm)
        } else {
            Ok(())
        }
    }

    fn bind_unix(&self, socket: BorrowedFd<'_>, addr: &SocketAddr) -> io::Result<()> {
        if self.has_local {
            self.rt.bind_unix(socket, addr)
        } else {
            Ok(())
        }
    }
}
