//! Files: what each call does, and what a crash kept.
use blobcrash::files::{Files, Profile};
use blobcrash::{Config, Error, PartialWriteMode, Probability, WriteConfig};
use std::io::{self, ErrorKind, Read, Seek, SeekFrom, Write};
use std::os::unix::fs::FileExt;
use std::path::PathBuf;

fn opened() -> Files {
    Files::builder().seed(7).open().unwrap()
}

/// A crash keeps any sectors of unsynced writes.
fn sectors() -> Config {
    Config::default().write(WriteConfig {
        failure_rate: Probability::ZERO,
        retention_rate: Probability::new(1, 2).unwrap(),
        mode: PartialWriteMode::Sectors(512),
    })
}

fn names(files: &Files, path: &str) -> Vec<PathBuf> {
    let entries = files.read_dir(path).unwrap();
    entries.iter().map(|entry| entry.path()).collect()
}

#[test]
fn files_and_their_bytes() -> io::Result<()> {
    let files = opened();
    let mut file = files.create_new("/f")?;
    assert_eq!(file.write(b"abc")?, 3);
    file.write_all(b"def")?;
    file.flush()?;
    assert_eq!(file.stream_position()?, 6);
    assert_eq!(file.seek(SeekFrom::Current(-4))?, 2);
    let mut two = [0; 2];
    file.read_exact(&mut two)?;
    assert_eq!(&two, b"cd");
    assert_eq!(file.seek(SeekFrom::End(-1))?, 5);
    let mut text = String::new();
    assert_eq!(file.read_to_string(&mut text)?, 1);
    assert_eq!(file.read(&mut two)?, 0);
    assert_eq!(text, "f");
    file.write_all_at(b"XY", 1)?;
    file.read_exact_at(&mut two, 0)?;
    assert_eq!(&two, b"aX");
    assert_eq!(file.read_at(&mut two, 5)?, 1);
    let error = file.read_exact_at(&mut two, 5).unwrap_err();
    assert_eq!(error.kind(), ErrorKind::UnexpectedEof);
    // The position of a file isn't that of another one.
    file.set_len(8)?;
    assert_eq!(files.read("/f")?, b"aXYdef\0\0");
    file.set_len(2)?;
    let metadata = file.metadata()?;
    assert!(metadata.is_file() && !metadata.is_dir());
    assert_eq!((metadata.len(), metadata.ino()), (2, 2));
    // Beyond the end.
    file.seek(SeekFrom::Start(4))?;
    file.write_all(b"z")?;
    assert_eq!(files.read("/f")?, b"aX\0\0z");
    // A file that is open keeps its bytes without a name. `&File` reads and writes too.
    files.remove_file("/f")?;
    (&file).write_all(b"!")?;
    file.rewind()?;
    let mut bytes = Vec::new();
    (&file).read_to_end(&mut bytes)?;
    assert_eq!(bytes, b"aX\0\0z!");
    file.sync_all()?;
    file.sync_data()?;
    assert!(!files.exists("/f")?);
    Ok(())
}

#[test]
fn options_of_an_open() -> io::Result<()> {
    let files = opened();
    let options = || files.options();
    let error = options().write(true).open("/f").unwrap_err();
    assert_eq!(error, Error::NotFound);
    options()
        .write(true)
        .create(true)
        .open("/f")?
        .write_all(b"abc")?;
    options()
        .write(true)
        .create(true)
        .open("/f")?
        .write_all(b"X")?;
    assert_eq!(files.read("/f")?, b"Xbc");
    let mut log = options().append(true).open("/f")?;
    log.write_all(b"d")?;
    files.create("/g")?;
    assert_eq!(log.seek(SeekFrom::Start(0))?, 0);
    log.write_all(b"e")?;
    assert_eq!(log.stream_position()?, 5);
    assert_eq!(files.read("/f")?, b"Xbcde");
    options().write(true).truncate(true).open("/f")?;
    assert_eq!(files.read("/f")?, b"");
    // What a file isn't open for.
    let mut read = files.open("/f")?;
    let mut write = files.create("/f")?;
    for error in [
        read.write_all(b"a").unwrap_err(),
        read.set_len(1).unwrap_err().into(),
        write.read(&mut [0]).unwrap_err(),
        options().open("/f").unwrap_err().into(),
        options()
            .read(true)
            .create(true)
            .open("/f")
            .unwrap_err()
            .into(),
        options()
            .read(true)
            .truncate(true)
            .open("/f")
            .unwrap_err()
            .into(),
        options()
            .append(true)
            .truncate(true)
            .open("/f")
            .unwrap_err()
            .into(),
    ] {
        assert_eq!(error.kind(), ErrorKind::InvalidInput, "{error}");
    }
    assert_eq!(
        options().append(true).create_new(true).open("/f").err(),
        Some(Error::Exists)
    );
    Ok(())
}

#[test]
fn names_and_directories() -> Result<(), Error> {
    let files = opened();
    files.create_dir("/d")?;
    files.create_dir_all("/d/e/f")?;
    files.create_dir_all("d/e/g/")?;
    files.create_dir_all("/")?;
    files.write("/d/a", "a")?;
    files.hard_link("/d/a", "/d/e/b")?;
    assert_eq!(names(&files, "/d"), ["/d/a", "/d/e"].map(PathBuf::from));
    assert_eq!(
        names(&files, "//d//e/"),
        ["b", "f", "g"].map(|name| PathBuf::from("//d//e/").join(name))
    );
    let metadata = files.metadata("/d/a")?;
    assert_eq!(files.metadata("/d/e/b")?, metadata);
    assert_eq!(files.read_dir("/d")?[0].ino(), metadata.ino());
    assert!(
        files.metadata("/d/e")?.file_type().is_dir()
            && files.read_dir("/d")?[0].file_type().is_file()
    );
    assert_eq!(
        (files.metadata("/")?.ino(), files.metadata("/")?.len()),
        (1, 0)
    );
    files.rename("/d/a", "/d/e/a")?;
    files.rename("/d/e", "/e")?;
    assert_eq!(
        names(&files, "/e"),
        ["/e/a", "/e/b", "/e/f", "/e/g"].map(PathBuf::from)
    );
    // Both names are of one file: nothing happens.
    files.rename("/e/a", "/e/b")?;
    files.write("/c", "c")?;
    files.exchange("/c", "/e/b")?;
    assert_eq!(
        (files.read("/c")?, files.read("/e/b")?),
        (b"a".to_vec(), b"c".to_vec())
    );
    files.exchange("/c", "/e")?;
    assert!(files.metadata("/c")?.is_dir());
    files.rename_no_replace("/e", "/a")?;
    files.remove_dir("/c/f")?;
    files.rename("/c/g", "/d")?;
    files.remove_file("/c/a")?;
    files.remove_file("/c/b")?;
    files.remove_dir("/c")?;
    assert_eq!(names(&files, "/"), ["/a", "/d"].map(PathBuf::from));
    Ok(())
}

#[test]
fn what_a_crash_kept() -> Result<(), Error> {
    // A create, the zeros of two sectors, and then the write of them: the draws of the crash are in this order.
    let last = [0, u64::MAX, u64::MAX, 0, u64::MAX, 1];
    let files = Files::builder()
        .words(&last)
        .profile(Profile::Posix)
        .config(sectors())
        .open()?;
    files.write("/f", [b'a'; 1024])?;
    let kept = files.crash()?;
    assert_eq!(kept.edits, [true]);
    assert_eq!(files.words_left(), Some(1));
    let half = [vec![true; 512], vec![false; 512]].concat();
    // The record of the create: 34 bytes and its entry, 8 bytes of the directory's number and the name.
    let zeros = vec![false; 1024];
    assert_eq!(
        kept.writes,
        [(0, vec![true; 43]), (1, zeros), (2, half)]
    );
    assert_eq!(files.read("/f")?, [b'a'; 512]);
    let told = "# of the unsettled edits it keeps 1\n# of write 0 it keeps bytes 0 to 42 of 43\n\
                # of write 1 it keeps none of 1024\n# of write 2 it keeps bytes 0 to 511 of 1024\nopen /f # is 1\nsize 1\nread 1 0 512\nclose 1\n";
    assert!(files.script().ends_with(told), "{}", files.script());
    Ok(())
}

#[test]
fn files_in_threads() {
    let files = opened();
    std::thread::scope(|scope| {
        for number in 0..8 {
            let files = files.clone();
            scope.spawn(move || {
                let path = format!("/{number}");
                for _ in 0..20 {
                    files.write(&path, path.as_bytes()).unwrap();
                    assert_eq!(files.read(&path).unwrap(), path.as_bytes());
                }
            });
        }
    });
    assert_eq!(files.read_dir("/").unwrap().len(), 8);
    // Writes through one file, at its position or at the end of the file, don't overlap.
    for appends in [false, true] {
        let mut options = files.options();
        let file = options.write(true).append(appends).create(true);
        let file = file.open(format!("/log {appends}")).unwrap();
        std::thread::scope(|scope| {
            for letter in b'a'..b'i' {
                let mut file = &file;
                scope.spawn(move || (0..20).for_each(|_| file.write_all(&[letter; 3]).unwrap()));
            }
        });
        let bytes = files.read(format!("/log {appends}")).unwrap();
        let records: Vec<&[u8]> = bytes.chunks(3).collect();
        for letter in b'a'..b'i' {
            assert_eq!(
                records
                    .iter()
                    .filter(|found| **found == [letter; 3])
                    .count(),
                20
            );
        }
        assert_eq!(records.len(), 160);
    }
}
