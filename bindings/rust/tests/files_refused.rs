//! Files: what is refused, arguments that no file system takes, and files that can't be used any more.
use blobcrash::files::{File, Files, Profile};
use blobcrash::{Config, Error, PartialWriteMode, Probability, WriteConfig};
use std::ffi::OsStr;
use std::io::{self, ErrorKind, Read, Seek, SeekFrom, Write};
use std::os::unix::ffi::OsStrExt;
use std::os::unix::fs::FileExt;
use std::path::PathBuf;

fn opened() -> Files {
    Files::builder().seed(7).open().unwrap()
}

/// A crash keeps any sectors of unsynced writes.
fn sectors() -> Config {
    Config::default().write(WriteConfig {
        failure_rate: Probability::ZERO,
        retention_rate: Probability::new(1, 2).unwrap(),
        mode: PartialWriteMode::Sectors(512),
    })
}

fn names(files: &Files, path: &str) -> Vec<PathBuf> {
    let entries = files.read_dir(path).unwrap();
    entries.iter().map(|entry| entry.path()).collect()
}

fn refused<T: std::fmt::Debug>(found: Result<T, Error>, expected: Error) {
    assert_eq!(found.err(), Some(expected));
}

#[test]
fn names_that_are_refused() -> Result<(), Error> {
    let files = opened();
    files.create_dir_all("/d/e")?;
    files.write("/f", "f")?;
    refused(files.open("/none"), Error::NotFound);
    refused(files.read("/none/f"), Error::NotFound);
    refused(files.rename("/g", "/h"), Error::NotFound);
    refused(files.exchange("/f", "/g"), Error::NotFound);
    refused(files.sync_directory("/g"), Error::NotFound);
    refused(files.open("/f/g"), Error::NotDirectory);
    refused(files.exists("/f/g"), Error::NotDirectory);
    refused(files.create_dir_all("/f/g/h"), Error::NotDirectory);
    refused(files.read_dir("/f"), Error::NotDirectory);
    refused(files.sync_directory("/f"), Error::NotDirectory);
    refused(files.remove_dir("/f"), Error::NotDirectory);
    refused(files.rename("/d", "/f"), Error::NotDirectory);
    refused(files.open("/d"), Error::IsDirectory);
    refused(files.create("/d"), Error::IsDirectory);
    refused(files.remove_file("/d"), Error::IsDirectory);
    refused(files.hard_link("/d", "/g"), Error::IsDirectory);
    refused(files.rename("/f", "/d"), Error::IsDirectory);
    refused(files.create_new("/f"), Error::Exists);
    refused(files.create_dir("/f"), Error::Exists);
    refused(files.create_dir_all("/f"), Error::Exists);
    refused(files.hard_link("/f", "/d"), Error::Exists);
    refused(files.rename_no_replace("/f", "/d"), Error::Exists);
    refused(files.remove_dir("/d"), Error::NotEmpty);
    files.create_dir("/g")?;
    refused(files.rename("/g", "/d"), Error::NotEmpty);
    files.remove_dir("/g")?;
    refused(files.rename("/d", "/d/g"), Error::Loop);
    refused(files.rename("/d", "/d/e/g"), Error::Loop);
    refused(files.exchange("/d", "/d/e"), Error::Loop);
    refused(files.exchange("/d/e", "/d"), Error::Loop);
    // None of these changed anything.
    assert_eq!(names(&files, "/"), ["/d", "/f"].map(PathBuf::from));
    assert_eq!(names(&files, "/d"), ["/d/e"].map(PathBuf::from));
    assert_eq!(files.read("/f")?, b"f");
    Ok(())
}

#[test]
fn what_a_name_is() -> Result<(), Error> {
    let files = opened();
    files.create_dir("/d")?;
    files.create("/f")?;
    let long = format!("/{}", "n".repeat(256));
    refused(files.create(&long), Error::NameTooLong);
    refused(files.open(&long), Error::NameTooLong);
    refused(files.rename("/d", &long), Error::NameTooLong);
    for path in ["", "/", "//", "/.", "/..", "/d/..", "..", "/a\0b", "/\0"] {
        refused(files.create(path), Error::InvalidName);
        refused(files.create_new(path), Error::InvalidName);
        refused(files.create_dir(path), Error::InvalidName);
        refused(files.remove_file(path), Error::InvalidName);
        refused(files.remove_dir(path), Error::InvalidName);
        refused(files.rename("/d", path), Error::InvalidName);
        refused(files.rename(path, "/e"), Error::InvalidName);
        refused(files.hard_link("/f", path), Error::InvalidName);
    }
    refused(files.read("/d/../f"), Error::InvalidName);
    assert_eq!(names(&files, "/"), ["/d", "/f"].map(PathBuf::from));
    // Any other bytes, as many as 255.
    files.create(&long[..256])?;
    let path = OsStr::from_bytes(b"/d/\xff \n\\\x01");
    files.write(path, "bytes")?;
    assert_eq!(files.read(path)?, b"bytes");
    let entry = &files.read_dir("/d")?[0];
    assert_eq!(entry.file_name(), OsStr::from_bytes(b"\xff \n\\\x01"));
    assert_eq!(entry.path(), path);
    let line = "create /d/\\xff\\x20\\x0a\\x5c\\x01 # is 2\n";
    assert!(files.script().contains(line), "{}", files.script());
    Ok(())
}

#[test]
fn errors_of_the_standard_library() {
    for (error, kind) in [
        (Error::NotFound, ErrorKind::NotFound),
        (Error::NotDirectory, ErrorKind::NotADirectory),
        (Error::IsDirectory, ErrorKind::IsADirectory),
        (Error::Exists, ErrorKind::AlreadyExists),
        (Error::NotEmpty, ErrorKind::DirectoryNotEmpty),
        (Error::Loop, ErrorKind::InvalidInput),
        (Error::InvalidName, ErrorKind::InvalidInput),
        (Error::NameTooLong, ErrorKind::InvalidInput),
        (Error::NoSpace, ErrorKind::StorageFull),
        (Error::TooManyLinks, ErrorKind::TooManyLinks),
        (Error::StaleHandle(""), ErrorKind::StaleNetworkFileHandle),
        (Error::Memory, ErrorKind::OutOfMemory),
        (Error::Injected, ErrorKind::Other),
        (Error::PowerLoss, ErrorKind::Other),
        (Error::Crashed, ErrorKind::Other),
    ] {
        let converted = io::Error::from(error.clone());
        assert_eq!(converted.kind(), kind, "{error}");
        let inner = converted.get_ref().and_then(|inner| inner.downcast_ref());
        assert_eq!(inner, Some(&error));
        assert_eq!(converted.to_string(), error.to_string());
    }
}

#[test]
fn offsets_up_to_the_greatest() -> io::Result<()> {
    let files = opened();
    let mut file = files.create_new("/f")?;
    file.write_all(b"abc")?;
    for offset in [u64::MAX, u64::MAX - 1, i64::MAX as u64, 1 << 62] {
        let error = file.write_at(b"xy", offset).unwrap_err();
        let expected = [
            ErrorKind::InvalidInput,
            ErrorKind::StorageFull,
            ErrorKind::OutOfMemory,
        ];
        assert!(expected.contains(&error.kind()), "{offset}: {error:?}");
        assert_eq!(file.write_at(b"", offset)?, 0);
        assert_eq!(file.read_at(&mut [0; 9], offset)?, 0);
        assert!(file.set_len(offset).is_err());
        assert_eq!(file.seek(SeekFrom::Start(offset))?, offset);
        assert_eq!(file.read(&mut [0])?, 0);
        assert_eq!(file.read_to_end(&mut Vec::new())?, 0);
        assert!(file.write(b"x").is_err());
        assert_eq!(file.stream_position()?, offset);
    }
    file.seek(SeekFrom::Start(u64::MAX))?;
    for to in [
        SeekFrom::Current(1),
        SeekFrom::Current(i64::MAX),
        SeekFrom::End(-4),
        SeekFrom::End(i64::MIN),
    ] {
        assert_eq!(file.seek(to).unwrap_err().kind(), ErrorKind::InvalidInput);
    }
    assert_eq!(file.read(&mut [])?, 0);
    assert_eq!(files.read("/f")?, b"abc");
    Ok(())
}

#[test]
fn limits_of_space() -> Result<(), Error> {
    let files = Files::builder().space(1000, 2).seed(7).open()?;
    let file = files.create("/f")?;
    file.set_len(600)?;
    files.write("/g", [1; 400])?;
    assert_eq!(file.set_len(601), Err(Error::NoSpace));
    let error = file.write_at(b"a", 600).unwrap_err();
    assert_eq!(error.kind(), ErrorKind::StorageFull);
    assert_eq!(files.create("/h").err(), Some(Error::NoSpace));
    file.set_len(0)?;
    files.write("/g", [1; 1000])?;
    Ok(())
}

/// Each use of a file and what it returns.
fn uses(mut file: File) -> Vec<ErrorKind> {
    let kind = |error: Error| io::Error::from(error).kind();
    let found = vec![
        file.read(&mut [0]).unwrap_err().kind(),
        file.read(&mut []).unwrap_err().kind(),
        file.read_to_end(&mut Vec::new()).unwrap_err().kind(),
        file.write(b"a").unwrap_err().kind(),
        file.write(b"").unwrap_err().kind(),
        file.read_at(&mut [0], 0).unwrap_err().kind(),
        file.write_at(b"a", 0).unwrap_err().kind(),
        file.seek(SeekFrom::End(0)).unwrap_err().kind(),
        kind(file.set_len(0).unwrap_err()),
        kind(file.sync_all().unwrap_err()),
        kind(file.sync_data().unwrap_err()),
        kind(file.metadata().unwrap_err()),
    ];
    drop(file);
    found
}

#[test]
fn a_file_after_a_crash() -> Result<(), Error> {
    let files = opened();
    let file = files.create_new("/f")?;
    let log = files.options().read(true).append(true).open("/f")?;
    files.settle()?;
    files.crash()?;
    // A new file gets another descriptor.
    let other = files.create_new("/g")?;
    assert_ne!(other.descriptor(), file.descriptor());
    assert!(matches!(file.metadata(), Err(Error::StaleHandle(_))));
    assert_eq!(uses(file), [ErrorKind::StaleNetworkFileHandle; 12]);
    assert_eq!(uses(log), [ErrorKind::StaleNetworkFileHandle; 12]);
    assert_eq!(other.metadata()?.len(), 0);
    // Neither drop closed anything: the last call is the size above.
    assert!(!files.script().contains("close"), "{}", files.script());
    drop(other);
    assert!(files.script().ends_with("close 2\n"), "{}", files.script());
    Ok(())
}

#[test]
fn a_file_without_power() -> Result<(), Error> {
    let files = opened();
    let file = files.create_new("/f")?;
    files.crash_after(0)?;
    assert_eq!(file.set_len(3), Err(Error::PowerLoss));
    assert!(files.is_power_off());
    assert_eq!(uses(file), [ErrorKind::Other; 12]);
    let refused = [
        files.open("/f").map(drop),
        files.create("/f").map(drop),
        files.read("/f").map(drop),
        files.exists("/").map(drop),
        files.read_dir("/").map(drop),
        files.create_dir_all("/"),
        files.rename("/f", "/g"),
        files.sync(),
        files.settle(),
        files.crash_after(3),
    ];
    assert!(
        refused.iter().all(|found| *found == Err(Error::PowerLoss)),
        "{refused:?}"
    );
    files.configure(Config::default())?;
    files.crash()?;
    assert!(!files.is_power_off());
    files.read_dir("/")?;
    let script = files.script();
    assert!(
        script.contains("# power loss\n") && !script.contains("close"),
        "{script}"
    );
    Ok(())
}

#[test]
fn calls_that_fail() -> io::Result<()> {
    let files = opened();
    let file = files.create_new("/f")?;
    file.write_all_at(b"abc", 0)?;
    files.settle()?;
    let always = Probability::ONE;
    let fails = |config| files.configure(config);
    fails(Config::default().sync(always))?;
    assert_eq!(file.sync_all(), Err(Error::Injected));
    assert_eq!(file.sync_data(), Err(Error::Injected));
    assert_eq!(files.sync(), Err(Error::Injected));
    files.sync_directory("/")?;
    fails(Config::default().read(always))?;
    assert_eq!(
        file.read_at(&mut [0], 0).unwrap_err().kind(),
        ErrorKind::Other
    );
    assert_eq!(files.read("/f"), Err(Error::Injected));
    fails(Config::default().open(always))?;
    assert_eq!(files.create("/g").err(), Some(Error::Injected));
    files.open("/f")?;
    let writes = WriteConfig {
        failure_rate: always,
        retention_rate: Probability::ZERO,
        mode: PartialWriteMode::Prefix,
    };
    fails(Config::default().write(writes))?;
    assert!(file.write_at(b"x", 0).is_err());
    fails(Config::default())?;
    assert_eq!(files.read("/f")?, b"abc");
    // A sector without bytes, and a rate that needs draws.
    let mode = PartialWriteMode::Sectors(0);
    let refused = fails(Config::default().write(WriteConfig { mode, ..writes }));
    assert!(matches!(refused, Err(Error::Argument(_))));
    let undrawn = Files::builder().keep(Probability::ZERO).open()?;
    assert_eq!(undrawn.configure(sectors()), Err(Error::NeedsSeed));
    Ok(())
}

#[test]
fn what_files_begin_with() {
    let open = |builder: blobcrash::files::Builder| builder.open().map(drop);
    assert_eq!(open(Files::builder()), Err(Error::NeedsSeed));
    let all = || Files::builder().keep(Probability::ONE);
    assert_eq!(open(all()), Ok(()));
    assert_eq!(open(all().config(sectors())), Err(Error::NeedsSeed));
    assert_eq!(open(Files::builder().words(&[1])), Ok(()));
    let twice = Files::builder().seed(7).seed(8);
    assert_eq!(open(twice), Err(Error::BadLine("seed 8".to_owned())));
    for line in [
        "crash",
        "image p 62 -",
        "profile ntfs",
        "keep 2 1",
        "space 1",
        "config frob",
    ] {
        let found = open(Files::builder().lines(&["seed 7", line]));
        assert_eq!(found, Err(Error::BadLine(line.to_owned())));
    }
    let lines = Files::builder().lines(&["seed 7\nprofile xfs"]);
    assert!(matches!(open(lines), Err(Error::BadLine(_))));
    for profile in Profile::ALL {
        assert_eq!(open(Files::builder().profile(profile).seed(7)), Ok(()));
    }
}
