//! Replies that break off, that come byte by byte, or without end, and writers that fail: what is shown is whole lines.

use rb_show::{Ask, Form, InfoFault, Question, Showing, Shown, show_reply};
use std::alloc::{AllocError, Global};
use std::io;
use std::io::{ErrorKind, Write};
use std::test::Fail;

/// DUMP of version 2, shown as a table.
const ASK: Ask = Ask {
    question: Question::Pmap,
    uid: None,
};

/// The header of the reply's one fragment, and its head: 28 bytes.
const HEAD: [u32; 7] = [0x80000094, 1, 1, 0, 0, 0, 0];

/// Version and protocol of each own row. A row has 20 bytes, and 4 after the last end the list.
const ROWS: [(u32, u32); 6] = [(4, 6), (3, 6), (2, 6), (4, 17), (3, 17), (2, 17)];

/// What is shown of it: seven lines, of 30 bytes each.
const TABLE: &[u8] =
    b"   program   vers proto  port\n    100000      4 tcp     111\n    100000      3 tcp     111\n    100000      2 tcp     111\n    100000      4 udp     111\n    100000      3 udp     111\n    100000      2 udp     111\n";

fn push_words(bytes: &mut Vec<u8>, words: &[u32]) -> Result<(), AllocError> {
    for word in words {
        bytes.extend_from_slice(&word.to_be_bytes())?;
    }
    Ok(())
}

/// The marked reply, of 152 bytes.
fn reply(alloc: Global) -> Result<Vec<u8>, AllocError> {
    let mut bytes = Vec::new(alloc);
    push_words(&mut bytes, &HEAD)?;
    for (vers, prot) in ROWS {
        push_words(&mut bytes, &[1, 100_000, vers, prot, 111])?;
    }
    push_words(&mut bytes, &[0])?;
    Ok(bytes)
}

/// What is shown if this many bytes come: no line before the head is whole, then the heading, and a line for each whole
/// row.
fn shown_of(len: usize) -> &'static [u8] {
    let lines = if len < 28 { 0 } else { 1 + (len - 28) / 20 };
    TABLE.get(..lines.saturating_mul(30)).unwrap_or(TABLE)
}

/// What comes of the bytes, and what is written.
fn show(alloc: Global, bytes: &[u8]) -> (Result<Shown, InfoFault>, Vec<u8>) {
    let mut written = Vec::new(alloc);
    let result = show_reply(alloc, &ASK, Form::Plain, 1, bytes, &mut written);
    (result, written)
}

/// Shows bytes as they come, one by one.
fn show_each<W: Write>(
    alloc: Global,
    bytes: &[u8],
    writer: &mut W,
) -> Result<Option<Shown>, InfoFault> {
    let mut showing = Showing::new(alloc, &ASK, Form::Plain, 1);
    for byte in bytes {
        if let Some(shown) = showing.feed(alloc, &[*byte], writer)? {
            return Ok(Some(shown));
        }
    }
    Ok(None)
}

#[test]
fn replies_in_prefixes(rt: HostRuntime) -> Result<(), Fail> {
    let reply = reply(rt.alloc())?;
    assert_eq!(rt; reply.len(), 152);
    for len in 0..152 {
        let (result, written) = show(rt.alloc(), &reply[..len]);
        assert_eq!(rt; result, Err(InfoFault::CutOff), "{len}");
        assert_eq!(rt; written.as_slice(), shown_of(len), "{len}");
    }
    let (result, written) = show(rt.alloc(), &reply);
    assert_eq!(rt; result, Ok(Shown::Rows(6)));
    assert_eq!(rt; written.as_slice(), TABLE);
    Ok(())
}

// SHOW-10 ITEM-2
/// Each line is there once its row came, before the bytes of the next.
#[test]
fn replies_byte_by_byte(rt: HostRuntime) -> Result<(), Fail> {
    let reply = reply(rt.alloc())?;
    for len in 0..152 {
        let mut written = Vec::new(rt.alloc());
        let result = show_each(rt.alloc(), &reply[..len], &mut written);
        assert_eq!(rt; result, Ok(None), "{len}");
        assert_eq!(rt; written.as_slice(), shown_of(len), "{len}");
    }
    let mut written = Vec::new(rt.alloc());
    let result = show_each(rt.alloc(), &reply, &mut written);
    assert_eq!(rt; result, Ok(Some(Shown::Rows(6))));
    assert_eq!(rt; written.as_slice(), TABLE);
    Ok(())
}

/// Zeros are fragments without data and without end: 16,777,216 bytes are read of them, and nothing is shown.
#[test]
fn reply_without_end(rt: HostRuntime) -> Result<(), Fail> {
    let zeros = [0; 65_536];
    let mut written = Vec::new(rt.alloc());
    let mut showing = Showing::new(rt.alloc(), &ASK, Form::Plain, 1);
    for _ in 1..256 {
        let result = showing.feed(rt.alloc(), &zeros, &mut written);
        assert_eq!(rt; result, Ok(None));
    }
    let result = showing.feed(rt.alloc(), &zeros, &mut written);
    assert_eq!(rt; result, Err(InfoFault::TooLong));
    assert!(rt; written.is_empty());
    Ok(())
}

/// Takes all, and fails at the write after this many.
#[derive(Drop)]
struct Closing {
    written: Vec<u8>,
    writes: usize,
}

impl Write for Closing {
    fn write(&mut self, bytes: &[u8]) -> io::Result<usize> {
        if self.writes == 0 {
            return Err(io::Error::from(ErrorKind::Other));
        }
        self.writes -= 1;
        self.written.write(bytes)
    }

    fn flush(&mut self) -> io::Result<()> {
        Ok(())
    }
}

/// Of a reply that comes byte by byte a line is one write, so it fails at each of the first seven.
#[test]
fn replies_in_prefixes_to_a_failing_writer(rt: HostRuntime) -> Result<(), Fail> {
    let reply = reply(rt.alloc())?;
    for writes in 0..8 {
        let mut writer = Closing {
            written: Vec::new(rt.alloc()),
            writes,
        };
        let result = show_each(rt.alloc(), &reply, &mut writer);
        let wanted = if writes < 7 {
            Err(InfoFault::Write)
        } else {
            Ok(Some(Shown::Rows(6)))
        };
        assert_eq!(rt; result, wanted, "{writes}");
        assert_eq!(rt;
            writer.written.as_slice(),
            &TABLE[..30 * writes.min(7)],
            "{writes}"
        );
    }
    Ok(())
}
