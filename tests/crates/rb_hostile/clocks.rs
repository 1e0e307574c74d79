//! Moments that are earlier than the last one: they count as the last one, and bring no deadline nearer or farther.
use crate::cores::{limits_of, listener};
use rb_lines::Beginning;
use rb_replay::{Meter, run_replay};
use std::alloc::{AllocError, Global};
use std::io::BufWriter;
use std::test::Fail;

/// An empty datagram at moment 0 where forwarded calls are sent from, and what it gives.
const EMPTY: &[u8] = b"forward 0 10.0.0.9:2049 -\n";

const IGNORED: &[u8] = b"ignored\n";

/// What the event lines print.
fn printed(alloc: Global, mut lines: &[u8]) -> Result<Vec<u8>, AllocError> {
    let beginning = Beginning {
        limits: limits_of(300),
        listener: listener(),
        first_xid: 1000,
        moment: 0,
        steps: false,
    };
    let mut output = BufWriter::new(alloc, Vec::new(alloc)).map_err(|_| AllocError)?;
    let mut faults = Vec::new(alloc);
    let mut meter = Meter::new();
    run_replay(
        alloc,
        &beginning,
        &mut lines,
        &mut output,
        &mut faults,
        &mut meter,
    );
    let (printed, _) = output.into_parts();
    Ok(printed)
}

/// The lines, and after each of them this one.
fn behind_each(alloc: Global, lines: &[u8], line: &[u8]) -> Result<Vec<u8>, AllocError> {
    let mut all = Vec::new(alloc);
    for byte in lines {
        all.push(*byte)?;
        if *byte == b'\n' {
            all.extend_from_slice(line)?;
        }
    }
    Ok(all)
}

/// The events print these lines, and print them too with an empty datagram at moment 0 after each.
fn stay(alloc: Global, events: &[u8], wanted: &[u8]) -> Result<bool, AllocError> {
    let as_they_are = printed(alloc, events)?;
    let with_others = printed(alloc, &behind_each(alloc, events, EMPTY)?)?;
    let others = behind_each(alloc, wanted, IGNORED)?;
    Ok(as_they_are.as_slice() == wanted && with_others.as_slice() == others.as_slice())
}

/// A connection that brings nothing has 300,000 ms from its opening.
const IDLE: &[u8] =
    b"open 0 127.0.0.1:900\nexpire 299999\nexpire 300000\nexpire 300000\npending 1\nclosed 1\n";

const IDLE_GIVES: &[u8] = b"open 1\nnothing\nclosed 1\nnothing\ngone\nok\n";

/// A record has 30,000 ms from its first byte.
const READING: &[u8] = b"open 0 127.0.0.1:900\nbytes 10 1 80\nexpire 30009\nexpire 30010\n";

const READING_GIVES: &[u8] = b"open 1\ntook 1\nnothing\nclosed 1\n";

/// The second is opened at an earlier moment, and has the deadline of the first.
const TWO: &[u8] =
    b"open 1000 127.0.0.1:900\nopen 500 127.0.0.1:900\nexpire 300999\nexpire 301000\nexpire 301000\n";

const TWO_GIVE: &[u8] = b"open 1\nopen 2\nnothing\nclosed 1\nclosed 2\n";

#[test]
fn clocks_that_go_back(rt: HostRuntime) -> Result<(), Fail> {
    assert!(rt; stay(rt.alloc(), IDLE, IDLE_GIVES)?);
    assert!(rt; stay(rt.alloc(), READING, READING_GIVES)?);
    assert!(rt; stay(rt.alloc(), TWO, TWO_GIVE)?);
    Ok(())
}
