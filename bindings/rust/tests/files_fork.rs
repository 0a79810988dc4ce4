//! Files that are forked.
use blobcrash::files::{Edits, Files, Profile, Syncs};
use blobcrash::{Config, Error, PartialWriteMode, Probability, WriteConfig};
use std::os::unix::fs::FileExt;

fn half() -> Probability {
    Probability::new(1, 2).unwrap()
}

/// Half of the unsynced bytes survive a crash.
fn halves() -> Config {
    Config::default().write(WriteConfig {
        failure_rate: Probability::ZERO,
        retention_rate: half(),
        mode: PartialWriteMode::Subset,
    })
}

#[test]
fn a_fork_has_the_same_state_and_draws() {
    let builder = Files::builder().profile(Profile::Xfs).config(halves());
    let files = builder.seed(7).open().unwrap();
    files.write("/f", [1; 64]).unwrap();
    files.settle().unwrap();
    let file = files.options().write(true).open("/f").unwrap();
    file.write_all_at(&[2; 64], 32).unwrap();
    files.hard_link("/f", "/g").unwrap();
    let fork = files.fork().unwrap();
    assert_eq!(fork.script(), files.script());
    assert_eq!(fork.read("/f"), files.read("/f"));
    let second = fork.fork().unwrap();
    let kept = files.crash().unwrap();
    assert_eq!(kept.edits.len(), 1);
    for each in [&fork, &second] {
        assert_eq!(each.crash().as_ref(), Ok(&kept));
        assert_eq!(each.script(), files.script());
    }
    for each in [&fork, &second] {
        assert_eq!(each.read("/f"), files.read("/f"));
        assert_eq!(each.exists("/g"), files.exists("/g"));
    }

    // What one does later the others don't see, also if the first is dropped.
    fork.write("/f", b"own").unwrap();
    fork.settle().unwrap();
    assert_eq!(second.read("/f"), files.read("/f"));
    drop((file, files));
    fork.crash().unwrap();
    assert_eq!(fork.read("/f").unwrap(), b"own");
}

#[test]
fn each_crashes_by_its_own_words() {
    let builder = Files::builder().config(halves());
    let words = [0, u64::MAX, u64::MAX];
    let files = builder.words(&words).open().unwrap();
    files.write("/f", b"aaaa").unwrap();
    files.settle().unwrap();
    let file = files.options().write(true).open("/f").unwrap();
    file.write_all_at(b"bb", 0).unwrap();
    let fork = files.fork().unwrap();
    // A call that draws takes the word that keeps a byte.
    fork.configure(halves().open(half())).unwrap();
    assert_eq!(fork.create_new("/g").err(), Some(Error::Injected));
    fork.configure(halves()).unwrap();
    assert_eq!(files.words_left(), Some(3));
    files.crash().unwrap();
    fork.crash().unwrap();
    assert_eq!(files.read("/f").unwrap(), b"baaa");
    assert_eq!(fork.read("/f").unwrap(), b"aaaa");

    // A fork of files that have crashed finds the same after another crash.
    let later = files.fork().unwrap();
    assert!(matches!(file.metadata(), Err(Error::StaleHandle(_))));
    later.crash().unwrap();
    assert_eq!(later.read("/f").unwrap(), b"baaa");
}

#[test]
fn open_files_stay_with_the_files_that_opened_them() {
    let files = Files::builder().seed(7).open().unwrap();
    let file = files.create_new("/f").unwrap();
    file.write_all_at(b"abc", 0).unwrap();
    let fork = files.fork().unwrap();
    file.write_all_at(b"d", 3).unwrap();
    assert_eq!(fork.read("/f").unwrap(), b"abc");
    // Descriptors go on from the same number.
    assert_eq!(fork.create("/g").unwrap().descriptor(), 2);
    assert_eq!(files.create("/g").unwrap().descriptor(), 1);
    // A crash of the fork leaves the file open.
    fork.crash().unwrap();
    assert_eq!(file.metadata().unwrap().len(), 4);
}

#[test]
fn a_fork_has_the_settings_the_power_and_whether_calls_are_recorded() {
    let builder = Files::builder().syncs(Syncs::Lie).space(4, 9).unrecorded();
    let files = builder.edits(Edits::Any).words(&[u64::MAX]).open().unwrap();
    files.crash_after(3).unwrap();
    let fork = files.fork().unwrap();
    for each in [&files, &fork] {
        assert_eq!(each.write("/f", b"12345"), Err(Error::NoSpace));
        each.sync().unwrap();
        assert!(!each.is_power_off());
        assert_eq!(each.sync(), Err(Error::PowerLoss));
        assert!(each.is_power_off() && each.fork().unwrap().is_power_off());
        assert_eq!(each.script(), "");
    }
    fork.crash().unwrap();
    assert!(files.is_power_off() && !fork.is_power_off());
    // The sync lied, and the edit is lost.
    assert_eq!(fork.exists("/f"), Ok(false));
}

#[test]
fn threads_may_use_forks_at_the_same_time() {
    let files = Files::builder().config(halves()).seed(7).open().unwrap();
    // A synced file of this size shares pages.
    files.write("/f", [1; 400_000]).unwrap();
    files.settle().unwrap();
    let run = |fork: Files| {
        for at in 0..100 {
            let further = fork.fork().unwrap();
            let file = further.options().write(true).open("/f").unwrap();
            file.write_all_at(&[2; 64], at * 4000).unwrap();
            further.rename("/f", "/g").unwrap();
            further.crash().unwrap();
        }
        fork.read("/f").unwrap()
    };
    let found = std::thread::scope(|scope| {
        let started: Vec<_> = (0..4)
            .map(|_| files.fork().unwrap())
            .map(|fork| scope.spawn(move || run(fork)))
            .collect();
        started
            .into_iter()
            .map(|run| run.join().unwrap())
            .collect::<Vec<_>>()
    });
    assert_eq!(found, vec![vec![1; 400_000]; 4]);
}

#[test]
fn what_cannot_be_forked_says_so() {
    let explored = blobcrash::explore(&Files::builder(), 1, |files| {
        Ok::<_, Error>(matches!(files.fork(), Err(Error::Argument(_))))
    });
    assert_eq!(explored.unwrap().outcomes[&true], 1);
}
