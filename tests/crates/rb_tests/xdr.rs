use rb_xdr::{Full, Kept, Meter, NoMemory, Opaque, Pool, Text, Xdr, XdrFault, take_opaque};
use std::process::Abort;
use std::test::Fail;

// Two values are inserted and found, and a third is refused.
fn two_are_kept(rt: &impl Abort, pool: &mut Pool<u32>, meter: &mut Meter) -> Result<(), Fail> {
    let first = pool.insert(10, meter)?;
    let second = pool.insert(20, meter)?;
    assert_eq!(rt; pool.insert(30, meter), Err(Full { value: 30 }));
    assert_eq!(rt; pool.first(meter), Some(first));
    assert_eq!(rt; pool.find_key(|value| *value == 20, meter), Some(second));
    assert_eq!(rt; pool.len(meter), 2);
    assert_eq!(rt; meter.count(), 9);
    Ok(())
}

#[test]
fn pool_has_memory(rt: HostRuntime) -> Result<(), Fail> {
    let mut meter = Meter::new();
    let mut pool: Pool<u32> = Pool::new(rt.alloc(), 2, &mut meter)?;
    two_are_kept(&rt, &mut pool, &mut meter)
}

// A value is inserted, written to and removed.
fn one_is_written(rt: &impl Abort, pool: &mut Pool<u32>, meter: &mut Meter) -> Result<(), Fail> {
    let first = pool.insert(10, meter)?;
    if let Some(value) = pool.get_mut(first, meter) {
        *value += 1;
    }
    assert_eq!(rt; pool.get(first, meter).copied(), Some(11));
    assert!(rt; matches!(pool.entry_after(None, meter), Some((_, 11))));
    assert!(rt; pool.entry_after(Some(first), meter).is_none());
    assert_eq!(rt; pool.remove(first, meter), Some(11));
    assert_eq!(rt; meter.count(), 7);
    Ok(())
}

#[test]
fn pool_values_are_written_and_removed(rt: HostRuntime) -> Result<(), Fail> {
    let mut meter = Meter::new();
    let mut pool: Pool<u32> = Pool::new(rt.alloc(), 2, &mut meter)?;
    one_is_written(&rt, &mut pool, &mut meter)
}

// Four bytes fill the buffer, and are read.
fn four_are_put(rt: &impl Abort, kept: &mut Kept, meter: &mut Meter) -> Result<(), Fail> {
    kept.extend(b"abc", meter)?;
    kept.push(b'd', meter)?;
    assert_eq!(rt; kept.push(b'e', meter), Err(Full { value: () }));
    assert_eq!(rt; kept.lend(1..3, meter), b"bc".as_slice());
    assert_eq!(rt; kept.room(meter), 0);
    Ok(())
}

// Four others fill it after a clear.
fn four_are_put_again(rt: &impl Abort, kept: &mut Kept, meter: &mut Meter) -> Result<(), Fail> {
    kept.clear(meter);
    kept.extend(b"efgh", meter)?;
    assert_eq!(rt; kept.push(b'i', meter), Err(Full { value: () }));
    assert_eq!(rt; kept.len(meter), 4);
    assert_eq!(rt; meter.count(), 15);
    Ok(())
}

#[test]
fn kept_has_memory(rt: HostRuntime) -> Result<(), Fail> {
    let mut meter = Meter::new();
    let mut kept = Kept::new(rt.alloc(), 4, &mut meter)?;
    four_are_put(&rt, &mut kept, &mut meter)?;
    four_are_put_again(&rt, &mut kept, &mut meter)
}

#[test]
fn refused_memory_is_an_error(rt: HostRuntime) -> Result<(), Fail> {
    let mut meter = Meter::new();
    let kept = Kept::new(rt.alloc(), usize::MAX, &mut meter);
    assert!(rt; matches!(kept, Err(NoMemory)));
    let pool: Result<Pool<u32>, NoMemory> = Pool::new(rt.alloc(), usize::MAX, &mut meter);
    assert!(rt; matches!(pool, Err(NoMemory)));
    Ok(())
}

// Spells a value in exactly as much room as it needs, and reads it again with more bytes after it.
fn goes_both_ways<T: Xdr + PartialEq>(
    rt: &HostRuntime,
    value: &T,
    text: &[u8],
) -> Result<bool, Fail> {
    let mut meter = Meter::new();
    let mut kept = Kept::new(rt.alloc(), text.len(), &mut meter)?;
    value.put(&mut kept, &mut meter)?;
    let is_full = value.put(&mut kept, &mut meter).is_err();
    let len = kept.len(&mut meter);
    let is_spelled = kept.lend(0..len, &mut meter) == text;
    let mut more = text.to_vec(rt.alloc())?;
    more.push(7)?;
    let is_read = match T::take(&more) {
        Ok((again, used)) => again == *value && used == text.len(),
        Err(_) => false,
    };
    Ok(is_full && is_spelled && is_read)
}

// The file of section 7 of RFC 4506: its name, its kind, the name of its interpreter, its owner, its data.
type File = (Text<255>, (u32, (Text<255>, (Text<32>, Opaque<65535>))));

#[test]
fn file_is_spelled_and_read(rt: HostRuntime) -> Result<(), Fail> {
    let file: File = (
        Text::new(b"sillyprog"),
        (
            2,
            (
                Text::new(b"lisp"),
                (Text::new(b"john"), Opaque::new(b"(quit)")),
            ),
        ),
    );
    let text =
        b"\x00\x00\x00\x09sillyprog\x00\x00\x00\x00\x00\x00\x02\x00\x00\x00\x04lisp\x00\x00\x00\x04john\x00\x00\x00\x06(quit)\x00\x00";
    assert!(rt; goes_both_ways(&rt, &file, text)?);
    Ok(())
}

#[test]
fn options_are_spelled_and_read(rt: HostRuntime) -> Result<(), Fail> {
    let options = (Some(true), (None::<u32>, -2));
    let text = b"\x00\x00\x00\x01\x00\x00\x00\x01\x00\x00\x00\x00\xff\xff\xff\xfe";
    assert!(rt; goes_both_ways(&rt, &options, text)?);
    assert_eq!(rt;
        take_opaque(b"\x00\x00\x00\x02ab\x00\x01", 2),
        Err(XdrFault::BadPadding)
    );
    assert_eq!(rt; XdrFault::BadPadding.number(), 4);
    Ok(())
}
