//! Records that do not end: all of their bytes are taken, few are kept, and the connection is given up at its deadline.

use crate::cores::{bytes_of, core_of, loopback};
use rb_core::{CoreFault, Expired, Metered, Taken};
use std::process::Abort;
use std::test::Fail;

/// The header of a fragment of 2,147,483,647 bytes that is not the last, and a NULL call of version 2.
const HUGE: [u32; 11] = [0x7fffffff, 1, 0, 2, 100_000, 2, 0, 0, 0, 0, 0];

/// What is held at the most while the arguments of a record come: the six own rows, a connection, and the first 8,816
/// bytes of them.
const HELD_AT_MOST: u64 = 1302 + 128 + 8816;

/// The piece is taken this many times, each time whole, and no more than this many bytes are ever held.
fn is_taken(core: &mut Metered, piece: &[u8], times: u32, most: u64) -> Result<bool, CoreFault> {
    for _i in 0..times {
        let (Taken { count, lost }, _) = core.bytes(0, 1, piece)?;
        if count != piece.len() || lost || core.held() > most {
            return Ok(false);
        }
    }
    Ok(true)
}

/// A record that began at moment 0 is given up 30,000 ms later.
fn is_given_up(rt: &impl Abort, core: &mut Metered) {
    assert_eq!(rt; core.expire(29_999), Expired::Nothing);
    assert_eq!(rt; core.expire(30_000), Expired::ConnectionLost(1));
}

/// Nothing is held but the six own rows and the connection.
#[test]
fn endless_records_of_empty_fragments(rt: HostRuntime) -> Result<(), Fail> {
    let mut core = core_of(rt.alloc(), 300)?;
    assert_eq!(rt; core.open(0, loopback()), Ok(1));
    assert_eq!(rt; is_taken(&mut core, &[0; 4], 100_000, 1430), Ok(true));
    assert_eq!(rt; core.held(), 1430);
    is_given_up(&rt, &mut core);
    Ok(())
}

/// A million bytes of one fragment: the call's head, and what would be its arguments.
#[test]
fn endless_records_of_one_fragment(rt: HostRuntime) -> Result<(), Fail> {
    let first = bytes_of(rt.alloc(), &HUGE)?;
    let mut core = core_of(rt.alloc(), 300)?;
    assert_eq!(rt; core.open(0, loopback()), Ok(1));
    assert_eq!(rt; is_taken(&mut core, &first, 1, 1430), Ok(true));
    assert_eq!(rt;
        is_taken(&mut core, &[0xff; 960], 1, HELD_AT_MOST),
        Ok(true)
    );
    assert_eq!(rt;
        is_taken(&mut core, &[0xff; 1000], 999, HELD_AT_MOST),
        Ok(true)
    );
    is_given_up(&rt, &mut core);
    Ok(())
}
