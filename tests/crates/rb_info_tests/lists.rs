//! The forms of rpcinfo that ask a portmapper one question: it is asked of a daemon by turns.
use crate::client::{Caller, Client, LOCAL, daemon_everywhere, portmapper, portmapper6};
use rb_address::Netid;
use rb_daemon::Daemon;
use rb_inside::Inside;
use rb_show::{Ask, Form, Question, Shown, show_datagram};
use rb_words::{Service, read_services};
use std::net::{Ipv4Addr, SocketAddr};
use std::os::unix::net::UnixStream;
use std::test::Fail;

/// Where a program of the test listens for datagrams: 78 times 256, and 153.
const TARGET: u16 = 20_121;

/// The own rows of the daemon: over IPv6 at :: and its port, over IPv4 at 0.0.0.0 and its port, and at the local socket.
const ROWS: &[u8] =
    b"100000 4 tcp6 ::.78.150 superuser\n100000 3 tcp6 ::.78.150 superuser\n100000 4 udp6 ::.78.150 superuser\n100000 3 udp6 ::.78.150 superuser\n100000 4 tcp 0.0.0.0.78.150 superuser\n100000 3 tcp 0.0.0.0.78.150 superuser\n100000 2 tcp 0.0.0.0.78.150 superuser\n100000 4 udp 0.0.0.0.78.150 superuser\n100000 3 udp 0.0.0.0.78.150 superuser\n100000 2 udp 0.0.0.0.78.150 superuser\n100000 4 local rb_info_tests.sock superuser\n100000 3 local rb_info_tests.sock superuser\n";

/// Those that version 2 lists, of tcp and udp alone, as objects.
const OBJECTS: &[u8] =
    b"{\"program\":100000,\"version\":4,\"protocol\":6,\"port\":20118}\n{\"program\":100000,\"version\":3,\"protocol\":6,\"port\":20118}\n{\"program\":100000,\"version\":2,\"protocol\":6,\"port\":20118}\n{\"program\":100000,\"version\":4,\"protocol\":17,\"port\":20118}\n{\"program\":100000,\"version\":3,\"protocol\":17,\"port\":20118}\n{\"program\":100000,\"version\":2,\"protocol\":17,\"port\":20118}\n";

/// As Debian's shows its own rows by `rpcinfo -s`.
const SUMMARY: &[u8] =
    b"   program version(s) netid(s)                         service     owner\n    100000  2,3,4     local,udp,tcp,udp6,tcp6          portmapper  superuser\n";

fn of_nobody(question: Question) -> Ask {
    Ask {
        question,
        uid: None,
    }
}

fn names_of(rt: &HostRuntime) -> Option<Vec<Service>> {
    read_services(rt.alloc(), b"portmapper 100000\n").ok()
}

/// Whether a question over TCP is answered so: with this many rows, which are shown as this text.
fn shows(
    rt: &HostRuntime,
    at: SocketAddr,
    form: Form<'_>,
    question: Question,
    wanted: (u32, &[u8]),
) -> Option<bool> {
    let mut daemon = daemon_everywhere(rt)?;
    let mut client = Client::new(rt, form);
    let shown = client.ask(&mut daemon, at, &of_nobody(question))?;
    let (count, text) = wanted;
    Some(shown == Ok(Shown::Rows(count)) && client.has_shown(text))
}

// JSON-3
/// `--json -p HOST`.
#[test]
fn objects_of_a_table(rt: HostRuntime) -> Result<(), Fail> {
    let is_shown = shows(&rt, portmapper(), Form::Json, Question::Pmap, (6, OBJECTS));
    assert_eq!(rt; is_shown, Some(true));
    Ok(())
}

/// `--summary HOST`.
#[test]
fn summary_of_own_rows(rt: HostRuntime) -> Result<(), Fail> {
    let services = names_of(&rt).ok_or("no names")?;
    let form = Form::Named(&services);
    let is_shown = shows(&rt, portmapper(), form, Question::Summary, (12, SUMMARY));
    assert_eq!(rt; is_shown, Some(true));
    Ok(())
}

/// `::1` as HOST.
#[test]
fn rows_of_an_ipv6_host(rt: HostRuntime) -> Result<(), Fail> {
    let is_shown = shows(&rt, portmapper6(), Form::Plain, Question::Rows, (12, ROWS));
    assert_eq!(rt; is_shown, Some(true));
    Ok(())
}

fn shows_locally(rt: &HostRuntime) -> Option<bool> {
    let mut daemon = daemon_everywhere(rt)?;
    let mut client = Client::new(rt, Form::Plain);
    let mut stream = UnixStream::connect(rt, LOCAL).ok()?;
    stream.set_nonblocking(true).ok()?;
    let ask = of_nobody(Question::Rows);
    let shown = client.ask_stream(&mut daemon, &mut stream, &ask, 1)?;
    Some(shown == Ok(Shown::Rows(12)) && client.has_shown(ROWS))
}

/// `--local PATH`.
#[test]
fn rows_over_the_local_socket(rt: HostRuntime) -> Result<(), Fail> {
    assert_eq!(rt; shows_locally(&rt), Some(true));
    Ok(())
}

/// SET of program 200001 version 1 over a protocol (6 or 17) at TARGET, by version 2.
fn sets_target(
    rt: &HostRuntime,
    daemon: &mut Daemon<'_, HostRuntime, HostRuntime, Inside<HostRuntime>>,
    prot: u32,
) -> Option<()> {
    let caller = Caller::new(rt, 0)?;
    let set = [9, 0, 2, 100_000, 2, 1, 0, 0, 0, 0, 200_001, 1, prot, 20_121];
    caller.send(rt, &set, portmapper())?;
    let (xid, _) = caller.first_word(rt, daemon)?;
    if xid == 9 { Some(()) } else { None }
}

fn deletes(rt: &HostRuntime) -> Option<bool> {
    let mut daemon = daemon_everywhere(rt)?;
    sets_target(rt, &mut daemon, 6)?;
    sets_target(rt, &mut daemon, 17)?;
    let mut client = Client::new(rt, Form::Plain);
    let tcp = of_nobody(Question::Unset(Some(Netid::Tcp), 200_001, 1));
    let all = of_nobody(Question::Unset(None, 200_001, 1));
    let first = client.ask(&mut daemon, portmapper(), &tcp)?;
    let again = client.ask(&mut daemon, portmapper(), &tcp)?;
    let rest = client.ask(&mut daemon, portmapper(), &all)?;
    let is_so = first == Ok(Shown::Removed(true))
        && again == Ok(Shown::Removed(false))
        && rest == Ok(Shown::Removed(true));
    Some(is_so && client.has_shown(b"removed\nnot removed\nremoved\n"))
}

// QUESTION-1 QUESTION-3
/// `-d -T tcp 200001 1` removes the row of TCP, and `-d 200001 1` the one that is left.
#[test]
fn row_of_a_netid_is_removed(rt: HostRuntime) -> Result<(), Fail> {
    assert_eq!(rt; deletes(&rt), Some(true));
    Ok(())
}

/// The port at which a program says that it answered a CALLIT.
fn called_through(rt: &HostRuntime) -> Option<Shown> {
    let mut daemon = daemon_everywhere(rt)?;
    sets_target(rt, &mut daemon, 17)?;
    let target = Caller::new(rt, TARGET)?;
    let caller = Caller::new(rt, 0)?;
    let ask = of_nobody(Question::Callit(200_001, 1));
    caller.ask(rt, &ask, 1, portmapper())?;
    let (xid, sender) = target.first_word(rt, &mut daemon)?;
    target.send(rt, &[xid, 1, 0, 0, 0, 0], sender)?;
    let reply = caller.receive(rt, &mut daemon)?;
    let mut nothing = Vec::new(rt.alloc());
    show_datagram(rt.alloc(), &ask, Form::Plain, 1, &reply, &mut nothing).ok()
}

// QUESTION-2
/// `-b 200001 1`, of one host: the daemon forwards the call, and its answer names the program's port.
#[test]
fn broadcast_reaches_a_program(rt: HostRuntime) -> Result<(), Fail> {
    assert_eq!(rt; called_through(&rt), Some(Shown::Port(20_121)));
    Ok(())
}
