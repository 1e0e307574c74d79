//! Files that are replaced as a whole and added to, files that are believed, and locks.
use rb_files::{AppendFault, KeptFile, KeptFileFault, LockFault, lock_file, new_file, read_kept};
use rb_policy::Distrust;
use std::alloc::Allocator;
use std::fs::{Files, Metadata, OpenOptions, Permissions};
use std::os::unix::fs::{PermissionsExt, symlink};
use std::test::Fail;
use std::{fs, io};

/// The most bytes of a file here.
const MOST: usize = 8;

fn set_mode(rt: &HostRuntime, path: &str, mode: u32) -> Result<(), Fail> {
    fs::set_permissions(rt, path, Permissions::from_mode(mode))?;
    Ok(())
}

/// Whether what is at the path has this text, and is believed.
fn has(rt: &HostRuntime, path: &str, text: &[u8]) -> bool {
    match read_kept(rt, rt.alloc(), path, MOST) {
        Ok(Some(found)) => found.as_slice() == text,
        Ok(None) | Err(_) => false,
    }
}

/// Whether nothing is at the path.
fn is_free(rt: &HostRuntime, path: &str) -> bool {
    fs::symlink_metadata(rt, path).is_err()
}

// FILE-4
#[test]
fn kept_file_is_replaced(rt: HostRuntime) -> Result<(), Fail> {
    let path = "rb_files_replaced.test";
    let mut file = KeptFile::new(rt.alloc(), path)?;
    let none = read_kept(&rt, rt.alloc(), path, MOST);
    assert!(rt; matches!(none, Ok(None)));
    file.replace(&rt, b"old")?;
    assert!(rt; has(&rt, path, b"old"));
    fs::write(&rt, "rb_files_replaced.test.new", b"left by another run")?;
    file.replace(&rt, b"new text")?;
    assert!(rt; has(&rt, path, b"new text"));
    assert_eq!(rt;
        fs::symlink_metadata(&rt, path)?.permissions().mode() & 0o777,
        0o600
    );
    assert!(rt; is_free(&rt, "rb_files_replaced.test.new"));
    fs::remove_file(&rt, path)?;
    Ok(())
}

// FILE-4
#[test]
fn file_stays_where_a_step_fails(rt: HostRuntime) -> Result<(), Fail> {
    let path = "rb_files_stays.test";
    let beside = "rb_files_stays.test.new";
    let mut file = KeptFile::new(rt.alloc(), path)?;
    fs::create_dir(&rt, path)?;
    assert!(rt; file.replace(&rt, b"new").is_err());
    assert!(rt; is_free(&rt, beside));
    fs::remove_dir(&rt, path)?;
    file.replace(&rt, b"old")?;
    symlink(&rt, path, beside)?;
    assert!(rt; file.replace(&rt, b"new").is_err());
    assert!(rt; fs::symlink_metadata(&rt, beside)?.is_symlink());
    assert!(rt; has(&rt, path, b"old"));
    fs::remove_file(&rt, beside)?;
    fs::remove_file(&rt, path)?;
    Ok(())
}

/// Whether a text is not added since another file is there.
fn is_another(added: &Result<(), AppendFault>) -> bool {
    matches!(added, Err(AppendFault::Another))
}

// FILE-6
#[test]
fn text_is_added_to_the_file_that_was_put_in_place(rt: HostRuntime) -> Result<(), Fail> {
    let path = "rb_files_added.test";
    let mut file = KeptFile::new(rt.alloc(), path)?;
    assert!(rt; is_another(&file.append(&rt, b"a")));
    file.replace(&rt, b"ab")?;
    assert!(rt; file.append(&rt, b"cd").is_ok());
    assert!(rt; file.append(&rt, b"").is_ok());
    assert!(rt; file.append(&rt, b"ef").is_ok());
    assert!(rt; has(&rt, path, b"abcdef"));
    fs::write(&rt, path, b"abcde")?;
    assert!(rt; is_another(&file.append(&rt, b"g")));
    assert!(rt; has(&rt, path, b"abcde"));
    assert!(rt; !file.is_placed());
    file.replace(&rt, b"ab")?;
    fs::write(&rt, path, b"abc")?;
    assert!(rt; is_another(&file.append(&rt, b"d")));
    file.replace(&rt, b"ab")?;
    fs::rename(&rt, path, "rb_files_added.other")?;
    symlink(&rt, "rb_files_added.other", path)?;
    assert!(rt; is_another(&file.append(&rt, b"c")));
    fs::remove_file(&rt, path)?;
    file.replace(&rt, b"ab")?;
    fs::rename(&rt, path, "rb_files_added.other")?;
    assert!(rt; is_another(&file.append(&rt, b"c")));
    assert!(rt; has(&rt, "rb_files_added.other", b"ab"));
    file.replace(&rt, b"ab")?;
    fs::rename(&rt, "rb_files_added.other", path)?;
    assert!(rt; is_another(&file.append(&rt, b"c")));
    fs::remove_file(&rt, path)?;
    Ok(())
}

/// The system's files, of which one is changed by somebody else before each opening.
#[derive(Clone, Copy)]
struct Changing {
    rt: HostRuntime,
    /// What comes in the place of which path.
    came: &'static str,
    at: &'static str,
}

impl Files for Changing {
    type File = <HostRuntime as Files>::File;

    type Dir = <HostRuntime as Files>::Dir;

    fn open_file(&self, how: &OpenOptions, path: &str) -> io::Result<Self::File> {
        self.rt.rename(self.came, self.at)?;
        self.rt.open_file(how, path)
    }

    fn open_dir(&self, path: &str) -> io::Result<Self::Dir> {
        self.rt.open_dir(path)
    }

    fn metadata(&self, path: &str) -> io::Result<Metadata> {
        self.rt.metadata(path)
    }

    fn symlink_metadata(&self, path: &str) -> io::Result<Metadata> {
        self.rt.symlink_metadata(path)
    }

    fn copy(&self, from: &str, to: &str) -> io::Result<u64> {
        self.rt.copy(from, to)
    }

    fn rename(&self, from: &str, to: &str) -> io::Result<()> {
        self.rt.rename(from, to)
    }

    fn remove_file(&self, path: &str) -> io::Result<()> {
        self.rt.remove_file(path)
    }

    fn create_dir(&self, path: &str) -> io::Result<()> {
        self.rt.create_dir(path)
    }

    fn remove_dir(&self, path: &str) -> io::Result<()> {
        self.rt.remove_dir(path)
    }

    fn remove_dir_all<B: Allocator>(&self, alloc: B, path: &str) -> io::Result<()> {
        self.rt.remove_dir_all(alloc, path)
    }
}

// FILE-3 FILE-5
/// After a look at a path another file comes there, one that others may write, or a link.
#[test]
fn files_that_come_after_a_look_are_not_taken(rt: HostRuntime) -> Result<(), Fail> {
    let path = "rb_files_seen.test";
    let came = "rb_files_came.test";
    let changing = Changing { rt, came, at: path };
    for (mode, is_exchanged) in [(0o600, true), (0o666, false)] {
        fs::write(&rt, path, b"seen")?;
        fs::write(&rt, came, b"came")?;
        set_mode(&rt, path, 0o600)?;
        set_mode(&rt, came, mode)?;
        let text = read_kept(&changing, rt.alloc(), path, MOST);
        assert_eq!(rt; matches!(text, Err(KeptFileFault::Exchanged)), is_exchanged);
        assert_eq!(rt;
            matches!(text, Err(KeptFileFault::Distrusted(_))),
            !is_exchanged
        );
        fs::remove_file(&rt, path)?;
    }
    let victim = "rb_files_victim.test";
    fs::write(&rt, victim, b"kept")?;
    set_mode(&rt, victim, 0o600)?;
    symlink(&rt, victim, came)?;
    assert!(rt; new_file(&changing, path).is_err());
    assert!(rt; has(&rt, victim, b"kept"));
    fs::remove_file(&rt, path)?;
    fs::remove_file(&rt, victim)?;
    Ok(())
}

// FILE-7
#[test]
fn one_has_the_lock_of_a_file(rt: HostRuntime) -> Result<(), Fail> {
    let path = "rb_files_locked.test";
    let first = lock_file(&rt, path);
    assert!(rt; first.is_ok());
    assert!(rt; matches!(lock_file(&rt, path), Err(LockFault::Held)));
    drop(first);
    assert!(rt; lock_file(&rt, path).is_ok());
    let other = "rb_files_locked.other";
    fs::rename(&rt, path, other)?;
    symlink(&rt, other, path)?;
    assert!(rt; matches!(lock_file(&rt, path), Err(LockFault::Failed(_))));
    fs::remove_file(&rt, path)?;
    fs::remove_file(&rt, other)?;
    Ok(())
}

// FILE-2 FILE-3 FILE-5
#[test]
fn files_of_others_are_not_read(rt: HostRuntime) -> Result<(), Fail> {
    let path = "rb_files_others.test";
    let link = "rb_files_others.link";
    drop(new_file(&rt, path)?);
    symlink(&rt, path, link)?;
    let linked = read_kept(&rt, rt.alloc(), link, MOST);
    assert!(rt;
        matches!(
            linked,
            Err(KeptFileFault::Distrusted(Distrust::NoPlainFile))
        )
    );
    for mode in [0o620, 0o602, 0o666] {
        set_mode(&rt, path, mode)?;
        match read_kept(&rt, rt.alloc(), path, MOST) {
            Err(KeptFileFault::Distrusted(Distrust::OthersMayWrite(found))) => {
                assert_eq!(rt; found, mode)
            }
            Ok(_) | Err(_) => return Err("it was believed".into()),
        }
    }
    set_mode(&rt, path, 0o644)?;
    assert!(rt; has(&rt, path, b""));
    let below = read_kept(&rt, rt.alloc(), "rb_files_others.test/rows", MOST);
    assert!(rt; matches!(below, Err(KeptFileFault::Failed(_))));
    fs::write(&rt, path, b"123456789")?;
    let long = read_kept(&rt, rt.alloc(), path, MOST);
    assert!(rt; matches!(long, Err(KeptFileFault::TooLong)));
    fs::remove_file(&rt, link)?;
    fs::remove_file(&rt, path)?;
    Ok(())
}
