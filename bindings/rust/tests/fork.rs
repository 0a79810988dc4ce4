//! A store that is forked.
use blobcrash::{Config, Error, PartialWriteMode, Probability, Store, WriteConfig, WriteOptions};

/// Half of the pending bytes survive a crash.
fn halves() -> Config {
    Config::default().write(WriteConfig {
        failure_rate: Probability::ZERO,
        retention_rate: Probability::new(1, 2).unwrap(),
        mode: PartialWriteMode::Subset,
    })
}

#[test]
fn a_fork_has_the_same_pending_writes_and_draws() {
    let store = Store::builder().config(halves()).seed(7).open().unwrap();
    let (blob, _) = store.open("p", b"b").unwrap();
    blob.write_at(0, &[1; 64], WriteOptions::SYNC).unwrap();
    blob.write_at(0, &[2; 64], WriteOptions::default()).unwrap();
    let fork = store.fork().unwrap();
    assert_eq!(fork.script(), store.script());
    let selections = store.crash().unwrap();
    assert_eq!(fork.crash().unwrap(), selections);
    assert!(!selections.is_empty());
    assert_eq!(fork.audit(), store.audit());
    assert_eq!(fork.script(), store.script());

    // What one does later the other doesn't see.
    fork.restart().unwrap();
    let (forked, _) = fork.open("p", b"b").unwrap();
    forked.resize(0).unwrap();
    forked.sync().unwrap();
    assert_ne!(fork.audit(), store.audit());
    assert_eq!(store.crash(), Ok(Vec::new()));
}

#[test]
fn a_fork_has_the_pushed_words_that_are_left() {
    let store = Store::builder().config(halves()).pushed().open().unwrap();
    let (blob, _) = store.open("p", b"b").unwrap();
    blob.write_at(0, b"ab", WriteOptions::default()).unwrap();
    store.push_words(&[0, u64::MAX, 5]).unwrap();
    let fork = store.fork().unwrap();
    let kept = [(0, vec![true, false])];
    assert_eq!(store.crash().unwrap(), kept);
    assert_eq!(fork.crash().unwrap(), kept);
    assert_eq!(store.words_left(), Some(2));
    assert_eq!(fork.words_left(), Some(2));
}

#[test]
fn only_a_line_feed_ends_a_line() {
    for end in ["\r", "\u{b}", "\u{c}", "\u{85}", "\u{2028}"] {
        let store = Store::builder().seed(7).open().unwrap();
        let (blob, _) = store.open("p", b"b").unwrap();
        blob.write_at(0, b"kept", WriteOptions::SYNC).unwrap();
        let reply = store.call(&format!("remove p{end}")).unwrap();
        assert_eq!(reply, format!("error PartitionNameInvalid p{end}"));
        store.note(&format!("a note{end}remove p"));
        let fork = store.fork().unwrap();
        assert_eq!(fork.audit(), store.audit(), "{end:?}");
        assert_eq!(fork.scan("p").as_deref(), Ok(&[b"b".to_vec()][..]));
        let replies = blobcrash::run_script(fork.script().as_bytes()).unwrap();
        let replies = String::from_utf8(replies).unwrap();
        assert_eq!(replies.split('\n').nth(2), Some(reply.as_str()));
    }
}

#[test]
fn lines_name_handles_and_started_syncs_by_the_same_numbers() {
    let store = Store::builder().seed(7).open().unwrap();
    let (blob, _) = store.open("p", b"b").unwrap();
    blob.write_at(0, b"abc", WriteOptions::default()).unwrap();
    let _started = blob.start_sync().unwrap();
    blob.write_at(3, b"d", WriteOptions::default()).unwrap();
    let fork = store.fork().unwrap();
    assert_eq!(fork.call("read 0 0 4").unwrap(), "bytes 61626364");
    assert_eq!(fork.call("finish 0").unwrap(), "ok");
    assert_eq!(fork.call("finish 0").unwrap(), "error NoHandle");
    assert!(matches!(
        fork.open("p", b"b"),
        Err(Error::BlobAlreadyOpen(..))
    ));
    // A crash of the fork leaves the store's own blob.
    fork.restart().unwrap();
    assert_eq!(fork.open("p", b"b").unwrap().1, 3);
    assert!(!blob.is_stale());
    blob.sync().unwrap();
    store.restart().unwrap();
    assert_eq!(store.open("p", b"b").unwrap().1, 4);
}

#[test]
fn a_fork_has_the_power_and_whether_calls_are_recorded() {
    let store = Store::builder().unrecorded().open().unwrap();
    store.crash_after(1).unwrap();
    let fork = store.fork().unwrap();
    for each in [&store, &fork] {
        let _blob = each.open("p", b"b").unwrap();
        assert!(!each.is_power_off());
        assert_eq!(each.open("p", b"c").err(), Some(Error::PowerLoss));
        assert!(each.is_power_off() && each.fork().unwrap().is_power_off());
        assert_eq!(each.script(), "");
    }
    fork.restart().unwrap();
    assert!(store.is_power_off() && !fork.is_power_off());
}

#[test]
fn threads_may_use_forks_at_the_same_time() {
    let store = Store::builder().config(halves()).seed(7).open().unwrap();
    let (blob, _) = store.open("p", b"b").unwrap();
    // A synced blob of this size shares pages.
    blob.write_at(0, &[1; 400_000], WriteOptions::default())
        .unwrap();
    blob.sync().unwrap();
    drop(blob);
    let run = |fork: Store| {
        for at in 0..100 {
            let further = fork.fork().unwrap();
            let (blob, _) = further.open("p", b"b").unwrap();
            blob.write_at(at * 4000, &[2; 64], WriteOptions::default())
                .unwrap();
            further.restart().unwrap();
        }
        fork.audit()
    };
    let digests = std::thread::scope(|scope| {
        let started: Vec<_> = (0..4)
            .map(|_| store.fork().unwrap())
            .map(|fork| scope.spawn(move || run(fork)))
            .collect();
        started
            .into_iter()
            .map(|run| run.join().unwrap())
            .collect::<Vec<_>>()
    });
    assert_eq!(digests, vec![store.audit(); 4]);
}

#[test]
fn what_cannot_be_forked_says_so() {
    let explored = blobcrash::explore(&Store::builder(), 1, |store| {
        Ok::<_, Error>(matches!(store.fork(), Err(Error::Argument(_))))
    });
    assert_eq!(explored.unwrap().outcomes[&true], 1);
}
