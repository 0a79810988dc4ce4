//! What would let a test pass although the code under test is wrong, and what a dropped value must free.
use blobcrash::{
    Blob, Config, Error, PartialWriteMode, Probability, ResizeConfig, Store, WriteConfig,
    WriteOptions, run_script,
};
use std::io;

const PLAIN: fn() -> WriteOptions = WriteOptions::default;

fn rate(numerator: u64, denominator: u64) -> Probability {
    Probability::new(numerator, denominator).unwrap()
}

fn writes(failure_rate: Probability, retention_rate: Probability) -> Config {
    let mode = PartialWriteMode::Subset;
    Config::default().write(WriteConfig {
        failure_rate,
        retention_rate,
        mode,
    })
}

fn resizes(failure_rate: Probability, partial_rate: Probability) -> Config {
    Config::default().resize(ResizeConfig {
        failure_rate,
        partial_rate,
    })
}

fn seeded() -> Store {
    Store::builder().seed(7).open().unwrap()
}

fn is_stale<T>(result: Result<T, Error>) -> bool {
    matches!(result, Err(Error::StaleHandle(_)))
}

/// Whether each use of a handle is refused, except its close.
fn is_refused(blob: &Blob) -> bool {
    is_stale(blob.read_at(0, 0))
        && is_stale(blob.read_at_buf(0, &mut []))
        && is_stale(blob.write_at(0, b"a", PLAIN()))
        && is_stale(blob.write_at(0, b"a", WriteOptions::SYNC))
        && is_stale(blob.resize(0))
        && is_stale(blob.size())
        && is_stale(blob.sync())
        && is_stale(blob.start_sync())
}

#[test]
fn rates_that_draw_need_a_seed_or_words() {
    let (half, zero, one) = (rate(1, 2), Probability::ZERO, Probability::ONE);
    let draws = [
        writes(zero, half),
        writes(half, zero),
        resizes(half, zero),
        resizes(one, one),
        resizes(zero, half),
        Config::default().open(half),
        Config::default().read(half),
        Config::default().sync(half),
        Config::default().remove(half),
        Config::default().scan(half),
    ];
    for config in draws {
        let refused = Store::builder().config(config).open();
        assert_eq!(refused.err(), Some(Error::NeedsSeed));
        assert!(Error::NeedsSeed.to_string().contains(".seed(7)"));
        let store = Store::builder().words(&[]).open().unwrap();
        assert_eq!(store.configure(config), Err(Error::NeedsSeed));
        assert!(Store::builder().seed(7).config(config).open().is_ok());
        assert!(Store::builder().words(&[0]).config(config).open().is_ok());
        assert!(
            Store::builder()
                .lines(&["seed 7"])
                .config(config)
                .open()
                .is_ok()
        );
    }
    for config in [
        writes(zero, one),
        writes(one, zero),
        resizes(one, zero),
        resizes(zero, one),
    ] {
        assert!(Store::builder().config(config).open().is_ok());
    }
}

#[test]
fn a_restart_closes_every_handle() {
    let store = seeded();
    store
        .configure(writes(Probability::ZERO, Probability::ZERO))
        .unwrap();
    let (blob, _) = store.open("wal", b"0").unwrap();
    blob.write_at(0, b"lost", PLAIN()).unwrap();
    assert_eq!(store.restart(), Ok(Vec::new()));
    assert!(is_refused(&blob));
    let (again, size) = store.open("wal", b"0").unwrap();
    assert_eq!(size, 0);
    drop(blob);
    drop(again);
    let script = store.script();
    assert_eq!(script.matches("close 0\n").count(), 1, "{script}");
    assert_eq!(script.matches("close 1\n").count(), 1, "{script}");
    assert!(store.open("wal", b"0").is_ok());
}

#[test]
fn a_handle_that_a_line_closes() {
    for line in ["close 0", " close  00 "] {
        let store = seeded();
        let (blob, _) = store.open("p", b"b").unwrap();
        blob.write_at(0, b"kept", WriteOptions::SYNC).unwrap();
        assert_eq!(store.call(line).unwrap(), "ok");
        assert_eq!(store.call(line).unwrap(), "error NoHandle");
        assert_eq!(store.restart(), Ok(Vec::new()));
        assert_eq!(store.open("p", b"b").unwrap().1, 4);
        assert!(store.script().contains("crash\nreopen\n"));
        // It isn't closed a second time.
        assert_eq!(blob.size(), Err(Error::NoHandle));
        let closes = store.script().matches("close").count();
        drop(blob);
        assert_eq!(store.script().matches("close").count(), closes);
    }
}

#[test]
fn stale_handles_are_refused() {
    let store = seeded();
    let (blob, _) = store.open("wal", b"0").unwrap();
    let (other, _) = store.open("wal", b"1").unwrap();
    let (third, _) = store.open("q", b"1").unwrap();
    assert!(!is_refused(&blob) && !blob.is_stale());
    store.remove("wal", Some(b"0")).unwrap();
    assert!(is_refused(&blob) && blob.is_stale() && !other.is_stale());
    store.remove("wal", None).unwrap();
    assert!(is_refused(&other) && !third.is_stale());
    store.crash().unwrap();
    assert!(is_refused(&third));
    for line in ["crash", "reopen", "remove wal", "remove  wal 30 "] {
        let (blob, _) = store.open("wal", b"0").unwrap();
        assert!(!blob.is_stale());
        store.call(line).unwrap();
        assert!(is_refused(&blob), "{line}");
    }
    store.reopen().unwrap();
    assert!(is_refused(&third));
}

#[test]
fn stale_handles_may_be_asked_for() {
    let store = Store::builder().seed(7).allow_stale().open().unwrap();
    let (blob, _) = store.open("wal", b"0").unwrap();
    blob.write_at(0, b"live", PLAIN()).unwrap();
    store.crash().unwrap();
    assert_eq!(blob.read_at(0, 4).unwrap(), b"live");
    store.reopen().unwrap();
    let missing = Error::BlobMissing("wal".to_owned(), "30".to_owned());
    assert_eq!(blob.sync(), Err(missing));
    blob.allow_stale(false);
    assert!(is_refused(&blob));
    let (strict, _) = seeded().open("wal", b"0").unwrap();
    strict.allow_stale(true);
    assert!(strict.size().is_ok());
}

#[test]
fn a_configuration_is_set_whole_or_not_at_all() {
    let store = seeded();
    let sectors = WriteConfig {
        failure_rate: Probability::ONE,
        retention_rate: Probability::ZERO,
        mode: PartialWriteMode::Sectors(0),
    };
    let config = Config::default().open(Probability::ONE).write(sectors);
    assert!(matches!(store.configure(config), Err(Error::Argument(_))));
    assert!(store.open("p", b"b").is_ok());
    let refused = Store::builder().config(config).open();
    assert!(matches!(refused, Err(Error::Argument(_))));
}

#[test]
fn a_dropped_sync_is_finished() {
    let store = seeded();
    let (blob, _) = store.open("p", b"b").unwrap();
    drop(blob.start_sync().unwrap());
    assert_eq!(store.call("finish 0").unwrap(), "error NoHandle");
    assert_eq!(blob.start_sync().unwrap().finish(), Ok(()));
    let started = blob.start_sync().unwrap();
    store.reopen().unwrap();
    drop(started);
    assert_eq!(store.script().matches("finish").count(), 3);
}

#[test]
fn a_script_makes_the_same_calls() {
    let store = Store::builder()
        .seed(3)
        .image("q", b"i", b"none")
        .config(writes(rate(1, 8), rate(1, 2)))
        .open()
        .unwrap();
    store.note("two\nlines");
    let (blob, _) = store.open("p", b"b").unwrap();
    let _ = blob.write_at(0, b"record", PLAIN());
    let _ = blob.write_at(6, b"", WriteOptions::SYNC);
    let _ = blob.read_at(0, 1 << 40);
    assert!(matches!(store.call("a\nb"), Err(Error::BadLine(_))));
    assert!(matches!(store.call("frob"), Err(Error::BadLine(_))));
    store.crash().unwrap();
    drop(blob);
    let wanted = "seed 3\nimage q 69 6e6f6e65\nconfig write 1 8 1 2 subset\n# two\n# lines\nopen p 62 0 0\n\
                  write 0 0 7265636f7264\nwrites 0 6 -\nread 0 0 1099511627776\ncrash\nclose 0\n";
    assert_eq!(store.script(), wanted);
    let replies = run_script(wanted.as_bytes()).unwrap();
    assert_eq!(replies.iter().filter(|byte| **byte == b'\n').count(), 7);
    assert_eq!(Store::builder().unrecorded().open().unwrap().script(), "");
}

#[test]
fn errors_are_io_errors() {
    let kind = |error| io::Error::from(error).kind();
    assert_eq!(
        kind(Error::BlobInsufficientLength),
        io::ErrorKind::UnexpectedEof
    );
    assert_eq!(
        kind(Error::PartitionMissing("p".to_owned())),
        io::ErrorKind::NotFound
    );
    assert_eq!(kind(Error::Injected), io::ErrorKind::Other);
    let source = io::Error::from(Error::Injected).into_inner().unwrap();
    assert_eq!(source.downcast_ref(), Some(&Error::Injected));
}
