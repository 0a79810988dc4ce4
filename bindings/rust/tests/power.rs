//! Power losses: at a chosen call, and at each call of an exploration.
use blobcrash::{
    Blob, Config, Error, Exploration, ExploreError, PartialWriteMode, Probability, Store,
    WriteConfig, WriteOptions,
};
use std::collections::BTreeMap;

type Found = (Vec<u8>, bool);

fn kept(numerator: u64, denominator: u64) -> Config {
    Config::default().write(WriteConfig {
        failure_rate: Probability::ZERO,
        retention_rate: Probability::new(numerator, denominator).unwrap(),
        mode: PartialWriteMode::Prefix,
    })
}

fn write_twice(store: &Store) -> Result<Blob, Error> {
    let (blob, _) = store.open("p", b"b")?;
    blob.write_at(0, b"a", WriteOptions::default())?;
    blob.write_at(1, b"b", WriteOptions::default())?;
    blob.sync()?;
    Ok(blob)
}

fn content(store: &Store) -> Result<Vec<u8>, Error> {
    let (blob, size) = store.open("p", b"b")?;
    blob.read_at(0, size as usize)
}

/// Writes twice and syncs, while there is power. Returns what is left, and whether the sync returned.
fn synced(store: &Store) -> Result<Found, Error> {
    let written = write_twice(store);
    let done = written.is_ok();
    if !done {
        assert_eq!(written.err(), Some(Error::PowerLoss));
        assert!(store.is_power_off());
        assert_eq!(store.scan("p"), Err(Error::PowerLoss));
        assert_eq!(store.reopen(), Err(Error::PowerLoss));
        assert_eq!(store.call("scan p"), Err(Error::PowerLoss));
        assert_eq!(store.crash_after(1), Err(Error::PowerLoss));
        let config = Config::default().sync(Probability::ZERO);
        assert_eq!(store.configure(config), Ok(()));
    }
    Ok((store.recover(content)?, done))
}

fn visit(config: Config, losses: u64) -> (u64, BTreeMap<Found, u64>) {
    let builder = Store::builder().config(config);
    let exploration = Exploration::of(&builder).power_losses(losses);
    let visited = exploration.visit(|run| synced(run)).unwrap();
    assert!(visited.is_complete);
    (visited.runs, visited.outcomes)
}

#[test]
fn the_power_fails_at_each_call() {
    let found = |bytes: &[u8], done| (bytes.to_vec(), done);
    // The four calls, the open of the recovery, and no loss.
    let (runs, outcomes) = visit(kept(0, 1), 1);
    assert_eq!(runs, 6);
    assert_eq!(
        outcomes,
        BTreeMap::from([(found(b"ab", true), 2), (found(b"", false), 4)])
    );
    // Each loss of the first four once more with one of the recovery, and two of the recovery after the whole run.
    assert_eq!(visit(kept(0, 1), 2).0, 6 + 4 + 1);
    // With the draws of the crash: nothing, one write or two are pending, of a byte each.
    let (runs, outcomes) = visit(kept(1, 2), 1);
    assert_eq!(runs, 1 + 1 + 2 + 4 + 2);
    let left = [
        found(b"", false),
        found(b"\0b", false),
        found(b"a", false),
        found(b"ab", false),
        found(b"ab", true),
    ];
    assert_eq!(outcomes.into_keys().collect::<Vec<_>>(), left);
}

#[test]
fn the_power_fails_after_some_calls() {
    for calls in 0..6 {
        let store = Store::builder().seed(7).config(kept(0, 1)).open().unwrap();
        store.crash_after(calls).unwrap();
        let expected: Found = if calls < 4 {
            (Vec::new(), false)
        } else {
            (b"ab".to_vec(), true)
        };
        assert_eq!(synced(&store), Ok(expected));
        let script = store.script();
        let made = script
            .lines()
            .skip(2)
            .map(|line| line.split(' ').next().unwrap());
        let made: Vec<&str> = made.take(calls.min(4) as usize).collect();
        assert_eq!(made, ["open", "write", "write", "sync"][..made.len()]);
        assert_eq!(script.contains("# power loss\n"), calls != 4, "{script}");
    }
}

#[test]
fn a_restart_closes_what_was_dropped_without_power() {
    let store = Store::builder().seed(7).open().unwrap();
    let (blob, _) = store.open("p", b"b").unwrap();
    let (other, _) = store.open("p", b"c").unwrap();
    let started = blob.start_sync().unwrap();
    store.crash_after(0).unwrap();
    assert_eq!(blob.size(), Err(Error::PowerLoss));
    drop(blob);
    assert_eq!(started.finish(), Err(Error::PowerLoss));
    store.restart().unwrap();
    drop(other);
    let script = store.script();
    assert!(
        script.ends_with("startsync 0\n# power loss\ncrash\nclose 0\nclose 1\nreopen\n"),
        "{script}"
    );
    assert!(store.open("p", b"b").is_ok());
}

#[test]
fn a_crash_and_a_reopen_turn_the_power_on() {
    let store = Store::builder().seed(7).open().unwrap();
    store.crash_after(1).unwrap();
    let (_blob, _) = store.open("p", b"b").unwrap();
    store.crash().unwrap();
    // The crash used up the last call.
    assert!(store.is_power_off());
    assert_eq!(store.open("p", b"b").err(), Some(Error::PowerLoss));
    store.reopen().unwrap();
    assert!(!store.is_power_off());
    assert!(store.open("p", b"b").is_ok());
}

#[test]
fn a_body_that_forgets_to_recover() {
    let builder = Store::builder();
    let visited = Exploration::of(&builder).power_losses(1).visit(|run| {
        run.open("p", b"b")?;
        run.scan("p")
    });
    let Err(ExploreError::Failed {
        error, run, script, ..
    }) = visited
    else {
        panic!("{visited:?}");
    };
    assert_eq!(
        (error, run, script.as_str()),
        (Error::PowerLoss, 2, "# power loss\n")
    );
    assert!(Error::PowerLoss.to_string().contains("recover"));
}
