//! The lines of a log, and how many of them a second has.
use rb_address::{Host, Owner, Peer, Source, Trust, Who};
use rb_policy::caller_rate::{LINES, LeftOut, LogCaller, OWN_COUNTS};
use rb_policy::log_lines::{ChangeLine, LONGEST_LOG_LINE, LogKind, LogLine};
use rb_policy::log_rate::{LOG_ROOM, LogRate, caller_at, caller_of, has_log_room};
use rb_proto::Refusal;
use rb_rpc::ReplyStatus;
use std::test::Fail;

fn from_here() -> Who {
    Who {
        source: Source::Inet(Peer::new(Host::V4([127, 0, 0, 1]), 900)),
        asked: Host::V4([0; 4]),
        trust: Trust::Local(Owner::Uid(0)),
    }
}

fn stranger() -> Who {
    Who {
        source: Source::Inet(Peer::new(Host::V4([192, 0, 2, 7]), 900)),
        asked: Host::V4([0; 4]),
        trust: Trust::Stranger,
    }
}

fn on_the_local_socket() -> Who {
    Who {
        source: Source::Local,
        ..from_here()
    }
}

fn set(who: Who, owner: Owner, refusal: Option<Refusal>) -> ChangeLine<'static> {
    ChangeLine {
        adds: true,
        prog: 100_003,
        vers: 3,
        netid: b"tcp",
        addr: b"0.0.0.0.8.1",
        owner,
        who,
        refusal,
    }
}

// LOG-3
#[test]
fn changes_are_told(rt: HostRuntime) -> Result<(), Fail> {
    let line = set(from_here(), Owner::Uid(0), None);
    assert_eq!(rt;
        format!(in rt.alloc(); "{line}")?.as_str(),
        "rpcbind: SET 100003 3 tcp 0.0.0.0.8.1 of 0 by 127.0.0.1:900: accepted"
    );
    let line = set(on_the_local_socket(), Owner::Unknown, Some(Refusal::Taken));
    assert_eq!(rt;
        format!(in rt.alloc(); "{line}")?.as_str(),
        "rpcbind: SET 100003 3 tcp 0.0.0.0.8.1 of unknown by local: refused: taken"
    );
    let line = ChangeLine {
        adds: false,
        netid: b"",
        ..set(stranger(), Owner::Uid(1_000), Some(Refusal::MayNotRegister))
    };
    assert_eq!(rt;
        format!(in rt.alloc(); "{line}")?.as_str(),
        "rpcbind: UNSET 100003 3 - of 1000 by 192.0.2.7:900 (stranger): refused: may not register"
    );
    Ok(())
}

// LOG-2
// A caller writes no line break, no escape and no space into the log.
#[test]
fn texts_of_callers_are_shown(rt: HostRuntime) -> Result<(), Fail> {
    let line = ChangeLine {
        netid: b"tcp\nrpcbind: \x1b[1m",
        addr: b"\x00\x7f\xff~!",
        ..set(from_here(), Owner::Uid(0), Some(Refusal::NoAddress))
    };
    assert_eq!(rt;
        format!(in rt.alloc(); "{line}")?.as_str(),
        "rpcbind: SET 100003 3 tcp?rpcbind:??[1m ???~! of 0 by 127.0.0.1:900: refused: no address"
    );
    Ok(())
}

// LOG-3
fn left_out(caller: Option<LogCaller>, count: u64, kind: LogKind) -> LogLine<'static> {
    LogLine::More(LeftOut { caller, count }, kind)
}

#[test]
fn refusals_and_endings_are_told(rt: HostRuntime) -> Result<(), Fail> {
    let lines = [
        (
            LogLine::RefusedCall(stranger(), ReplyStatus::ProgUnavail),
            "rpcbind: call by 192.0.2.7:900 (stranger) refused: program unavailable",
        ),
        (
            LogLine::RefusedCall(from_here(), ReplyStatus::GarbageArgs),
            "rpcbind: call by 127.0.0.1:900 refused: garbage arguments",
        ),
        (
            LogLine::GivenUp(stranger().source),
            "rpcbind: connection of 192.0.2.7:900 given up",
        ),
        (
            left_out(None, 17, LogKind::Refused),
            "rpcbind: 17 more refused changes",
        ),
        (
            left_out(Some(caller_of(&from_here())), 2, LogKind::Accepted),
            "rpcbind: 2 more accepted changes of 0",
        ),
        (
            left_out(Some(LogCaller::Owner(Owner::Unknown)), 3, LogKind::Accepted),
            "rpcbind: 3 more accepted changes of unknown",
        ),
        (
            left_out(Some(caller_of(&stranger())), 4, LogKind::Calls),
            "rpcbind: 4 more refused calls by 192.0.2.7",
        ),
        (
            left_out(Some(caller_at(stranger().source)), 1, LogKind::GivenUp),
            "rpcbind: 1 more connections given up by 192.0.2.7",
        ),
    ];
    for (line, wanted) in lines {
        assert_eq!(rt; format!(in rt.alloc(); "{line}")?.as_str(), wanted);
    }
    Ok(())
}

#[test]
fn longest_line_has_room(rt: HostRuntime) -> Result<(), Fail> {
    let line = ChangeLine {
        adds: false,
        prog: u32::MAX,
        vers: u32::MAX,
        netid: &[b'n'; 32],
        addr: &[b'a'; 128],
        owner: Owner::Uid(u32::MAX),
        who: Who {
            source: Source::Inet(Peer::new(Host::V6([0xff; 16]), u16::MAX)),
            ..stranger()
        },
        refusal: Some(Refusal::NothingToRemove),
    };
    for adds in [false, true] {
        let line = ChangeLine { adds, ..line };
        let text = format!(in rt.alloc(); "{line}\n")?;
        assert!(rt; text.len() <= LONGEST_LOG_LINE);
    }
    Ok(())
}

fn uid(uid: u32) -> LogCaller {
    LogCaller::Owner(Owner::Uid(uid))
}

fn host(last: u8) -> LogCaller {
    LogCaller::Host(Host::V4([192, 0, 2, last]))
}

// How many of this many lines that a caller asks for at a moment the log gets.
fn count_at(rate: &mut LogRate, now: u64, caller: LogCaller, lines: u32) -> u32 {
    let mut count = 0;
    for _ in 0..lines {
        if rate.ask(now, caller, true) {
            count += 1;
        }
    }
    count
}

// LOG-1
// How many lines are told then as left out of callers with counts of their own, and of all others.
fn take_all(rate: &mut LogRate, now: u64) -> (u64, u64) {
    let (mut own, mut others) = (0, 0);
    for _ in 0..100 {
        match rate.take_left_out(now) {
            Some(
                LeftOut {
                    caller: Some(_),
                    count,
                },
            ) => own += count,
            Some(
                LeftOut {
                    caller: None,
                    count,
                },
            ) => others += count,
            None => break,
        }
    }
    (own, others)
}

#[test]
fn lines_of_a_second_are_few(rt: HostRuntime) {
    let mut rate = LogRate::new();
    assert_eq!(rt; count_at(&mut rate, 5_000, uid(0), LINES), LINES);
    assert_eq!(rt; rate.next_line(), None);
    assert_eq!(rt; count_at(&mut rate, 5_999, uid(0), 17), 0);
    assert_eq!(rt; rate.next_line(), Some(6_000));
    assert_eq!(rt; take_all(&mut rate, 5_999), (0, 0));
    assert_eq!(rt; take_all(&mut rate, 6_000), (17, 0));
    assert_eq!(rt; rate.next_line(), None);
    assert_eq!(rt; count_at(&mut rate, 6_000, uid(0), 2), 2);
    assert_eq!(rt; take_all(&mut rate, 7_000), (0, 0));
}

// LOG-4: one that asks for too many hides nothing of another one's
#[test]
fn callers_have_lines_of_their_own(rt: HostRuntime) {
    let mut rate = LogRate::new();
    assert_eq!(rt; count_at(&mut rate, 5_000, uid(1_000), 50), LINES);
    assert_eq!(rt; count_at(&mut rate, 5_000, uid(0), 1), 1);
    for last in 1..=100 {
        let own = if last as usize <= OWN_COUNTS { 1 } else { 0 };
        assert!(rt; count_at(&mut rate, 5_000, host(last), 30) <= LINES * (own + 1));
    }
    assert_eq!(rt;
        count_at(&mut rate, 5_000, LogCaller::Owner(Owner::Unknown), 1),
        1
    );
    assert_eq!(rt; take_all(&mut rate, 6_000), (30 + 80, 92 * 30 - 20));
}

// LOG-6: accepted changes have all of the room, others half of it
#[test]
fn turns_have_room_for_lines(rt: HostRuntime) {
    let half = LOG_ROOM / 2 - LONGEST_LOG_LINE;
    assert!(rt; has_log_room(LogKind::Refused, half) && !has_log_room(LogKind::Refused, half + 1));
    let all = LOG_ROOM - LONGEST_LOG_LINE;
    assert!(rt; has_log_room(LogKind::Accepted, all) && !has_log_room(LogKind::Accepted, all + 1));
    let mut rate = LogRate::new();
    assert!(rt; !rate.ask(5_000, uid(0), false));
    assert_eq!(rt; take_all(&mut rate, 6_000), (1, 0));
}
