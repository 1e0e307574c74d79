//! A course of questions to a daemon in the same process, on port 20116 of 127.0.0.1.
use crate::turns::{daemon_of, receive};
use rb_address::Transport;
use rb_daemon::Daemon;
use rb_inside::Inside;
use rb_plans::{Aim, Answer, Course, End, Stage, Step, asked, begin, next};
use rb_show::{Form, InfoFault, Shown, show_reply, write_marked_call};
use rb_words::Way;
use std::io::Write;
use std::net::{Ipv4Addr, SocketAddr, TcpStream};
use std::test::Fail;

const PORT: u16 = 20_116;

/// The most questions that are asked.
const QUESTIONS: u32 = 10;

/// Asks what a stage asks, over a connection of its own, and says what follows of the answer.
fn step(
    rt: &HostRuntime,
    daemon: &mut Daemon<'_, HostRuntime, HostRuntime, Inside<HostRuntime>>,
    course: &Course,
    stage: Stage,
    xid: u32,
    shown: &mut Vec<u8>,
) -> Option<Step> {
    let (_, ask) = asked(course, stage)?;
    let mut call = Vec::new(rt.alloc());
    write_marked_call(rt.alloc(), &ask, xid, &mut call).ok()?;
    let mut stream = TcpStream::connect(rt, SocketAddr::from((Ipv4Addr::LOCALHOST, PORT))).ok()?;
    stream.set_nonblocking(true).ok()?;
    stream.write_all(&call).ok()?;
    let mut got = [0; 256];
    let len = receive(rt, daemon, &mut stream, &mut got);
    let reply = got.get(..len)?;
    let answer = match show_reply(rt.alloc(), &ask, Form::Plain, xid, reply, shown) {
        Ok(Shown::Null) => Answer::Ready,
        Err(InfoFault::Refused(head)) => Answer::Refused(head.status),
        _ => return None,
    };
    Some(next(course, stage, answer))
}

// COURSE-5
/// The refusal of version 0 tells that versions 2 to 4 are there, and each is called.
#[test]
fn each_version_over_tcp(rt: HostRuntime) -> Result<(), Fail> {
    let mut daemon = daemon_of(&rt, PORT, 4).ok_or("no daemon")?;
    let course = Course {
        way: Way::Port(Transport::Tcp, PORT),
        prog: 100_000,
        uid: None,
    };
    let mut shown = Vec::new(rt.alloc());
    let mut stage = begin(&course, Aim::Least);
    for xid in 1..QUESTIONS {
        match step(&rt, &mut daemon, &course, stage, xid, &mut shown) {
            Some(step) => stage = step.stage,
            None => break,
        }
    }
    assert!(rt; matches!(stage, Stage::End(End::Ready)));
    assert_eq!(rt;
        shown.as_slice(),
        b"program 100000 version 2 ready\nprogram 100000 version 3 ready\nprogram 100000 version 4 ready\n".as_slice()
    );
    Ok(())
}
