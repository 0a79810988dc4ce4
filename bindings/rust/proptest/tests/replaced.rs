//! A file that is replaced by a rename, by words that proptest draws and makes smaller.
use blobcrash::files::{Files, Profile};
use blobcrash::{Config, PartialWriteMode, Probability, WriteConfig};
use blobcrash_proptest::{Words, words};
use proptest::test_runner::{TestCaseError, TestError, TestRunner};
use std::io::Write;

/// Replaces a file, crashes, and fails if it has neither content.
fn replaces(words: &Words, syncs: bool) -> Result<(), TestCaseError> {
    let torn = Config::default().write(WriteConfig {
        failure_rate: Probability::ZERO,
        retention_rate: Probability::new(1, 2).unwrap(),
        mode: PartialWriteMode::Sectors(512),
    });
    let files = Files::builder()
        .profile(Profile::Xfs)
        .config(torn)
        .words(&words.to_vec())
        .open()
        .unwrap();
    files.write("/f", b"old").unwrap();
    files.settle().unwrap();
    let mut file = files.create("/new").unwrap();
    file.write_all(b"new").unwrap();
    if syncs {
        file.sync_all().unwrap();
    }
    files.rename("/new", "/f").unwrap();
    files.restart().unwrap();
    match files.read("/f").unwrap().as_slice() {
        b"old" | b"new" => Ok(()),
        other => Err(TestCaseError::fail(format!("{other:?}"))),
    }
}

#[test]
fn a_synced_file_is_old_or_new() {
    let runner = &mut TestRunner::deterministic();
    runner
        .run(&words(0..30), |words| replaces(&words, true))
        .unwrap();
}

#[test]
fn the_smallest_words_keep_the_names() {
    let runner = &mut TestRunner::deterministic();
    let failed = runner.run(&words(0..30), |words| replaces(&words, false));
    let Err(TestError::Fail(_, smallest)) = failed else {
        panic!("{failed:?}");
    };
    // By hand: the new name is kept, the bytes are lost, and the rename is kept.
    assert_eq!(smallest.0, [0, u64::MAX, 0]);
}
