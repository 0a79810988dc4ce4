//! Programs on files that lose data, each found by an exploration, and the same programs without their bug.
mod sectors;

use blobcrash::files::{Builder, FailedSync, Files, Profile};
use blobcrash::{Error, Exploration, ExploreError, Run, seeds};
use sectors::{SECTOR, builder, config, half, letters, sectors};
use std::io::{self, Write};

/// What a program forgets.
#[derive(Clone, Copy, Debug, PartialEq)]
enum Forgets {
    Nothing,
    Sync,
    DirectorySync,
    Checksum,
}

/// Replaces `/f` by new bytes.
fn replace(files: &Files, forgets: Forgets) -> io::Result<()> {
    let mut file = files.create("/t")?;
    file.write_all(&sectors("BB"))?;
    if forgets != Forgets::Sync {
        file.sync_all()?;
    }
    drop(file);
    files.rename("/t", "/f")?;
    if forgets != Forgets::DirectorySync {
        files.sync_directory("/")?;
    }
    Ok(())
}

/// Replaces a file, with a power loss at each call. The bytes are always those before or those after, and those after once the
/// replacement has returned.
fn replacement(run: &Run<Files>, forgets: Forgets) -> Result<(), String> {
    let told = |error: io::Error| error.to_string();
    let set_up = || {
        run.write("/f", sectors("AA"))?;
        run.settle()
    };
    let is_set_up = set_up().is_ok();
    let is_done = is_set_up && replace(run, forgets).is_ok();
    let found = run
        .recover(|files| letters(files, "/f").map_err(io::Error::from))
        .map_err(told)?;
    match found.as_str() {
        _ if !is_set_up => Ok(()),
        "AA" if !is_done => Ok(()),
        "BB" => Ok(()),
        other => Err(format!("{other:?} is left, done: {is_done}")),
    }
}

fn explored(
    profile: Profile,
    body: impl FnMut(&Run<Files>) -> Result<(), String>,
) -> Result<u64, (u64, String)> {
    explored_with(&builder(profile), body)
}

fn explored_with(
    builder: &Builder,
    body: impl FnMut(&Run<Files>) -> Result<(), String>,
) -> Result<u64, (u64, String)> {
    match Exploration::of(builder).power_losses(1).visit(body) {
        Ok(visited) => {
            assert!(visited.is_complete);
            Ok(visited.runs)
        }
        Err(ExploreError::Failed {
            error, run, script, ..
        }) => {
            assert!(
                script.contains("\nwrite ") && script.contains("\ncrash\n"),
                "{script}"
            );
            Err((run, error))
        }
        other => panic!("{other:?}"),
    }
}

/// Without a bug there is a run for each call and each way in which a loss there keeps the pending edits and sectors. The first write of
/// `/f` has 1 + 2, its replacement 1 + 2 + 8 + 1 + 2, and a run without a loss 1. Except in XFS each of the two sectors may also be
/// zeros: 32 in place of 8. In POSIX the name of the synced file is pending too, at the last two calls: 2 + 4.
#[test]
fn a_file_that_is_replaced_by_a_rename() {
    for (profile, runs) in Profile::ALL.into_iter().zip([42, 18, 42, 45]) {
        let of = |forgets| explored(profile, |run| replacement(run, forgets));
        assert_eq!(of(Forgets::Nothing), Ok(runs), "{profile:?}");
        let unsynced = of(Forgets::Sync);
        assert!(unsynced.is_err(), "{profile:?}: {unsynced:?}");
        // The old bytes are left although the call has returned.
        let undirected = of(Forgets::DirectorySync);
        assert!(
            undirected
                .clone()
                .is_err_and(|(_, error)| error.starts_with("\"AA\" is left")),
            "{profile:?}: {undirected:?}"
        );
    }
}

/// A record of two sectors: a checksum, and what it is of.
fn record(letter: u8) -> Vec<u8> {
    let mut bytes = vec![letter; 2 * SECTOR];
    let sum = checksum(&bytes[1..]);
    bytes[0] = sum;
    bytes
}

/// FNV-1a: a sector of a letter and one of zeros have different sums.
fn checksum(bytes: &[u8]) -> u8 {
    let step = |sum: u32, byte: &u8| (sum ^ u32::from(*byte)).wrapping_mul(16_777_619);
    (bytes.iter().fold(2_166_136_261, step) >> 24) as u8
}

/// Returns how many records the log has: those before the first one with another checksum.
fn records(files: &Files, forgets: Forgets) -> Result<usize, Error> {
    let bytes = files.read("/log")?;
    let records = bytes.chunks_exact(2 * SECTOR);
    let is_whole =
        |record: &&[u8]| record[0] == checksum(&record[1..]) || forgets == Forgets::Checksum;
    let whole: Vec<&[u8]> = records.take_while(is_whole).collect();
    if whole
        .iter()
        .zip(*b"ab")
        .any(|(found, letter)| *found != record(letter))
    {
        return Err(Error::Argument("a record has other bytes".to_owned()));
    }
    Ok(whole.len())
}

fn append(run: &Run<Files>, forgets: Forgets) -> Result<(), String> {
    let mut appended = 0;
    let mut write = || -> io::Result<()> {
        let mut log = run.options().append(true).create(true).open("/log")?;
        run.sync_directory("/")?;
        for letter in *b"ab" {
            log.write_all(&record(letter))?;
            log.sync_data()?;
            appended += 1;
        }
        Ok(())
    };
    let _ = write();
    let found = run.recover(|files| match records(files, forgets) {
        Err(Error::NotFound) => Ok(0),
        found => found,
    });
    let found = found.map_err(|error| error.to_string())?;
    if found < appended || found > appended + 1 {
        return Err(format!("{found} records of {appended}"));
    }
    Ok(())
}

#[test]
fn an_append_without_a_checksum() {
    for profile in Profile::ALL {
        let checked = explored(profile, |run| append(run, Forgets::Nothing));
        assert!(checked.is_ok(), "{profile:?}: {checked:?}");
        let unchecked = explored(profile, |run| append(run, Forgets::Checksum));
        assert!(unchecked.is_err(), "{profile:?}: {unchecked:?}");
    }
}

/// Writes a page of the log to its file, and empties the log. If the sync of the file fails, it may be tried again.
fn checkpoint(files: &Files, retries: bool) -> io::Result<()> {
    let mut data = files.options().write(true).open("/data")?;
    data.write_all(&sectors("B"))?;
    if data.sync_all().is_err() {
        if !retries {
            return Err(io::ErrorKind::Other.into());
        }
        data.sync_all()?;
    }
    let log = files.options().write(true).open("/log")?;
    log.set_len(0)?;
    Ok(log.sync_all()?)
}

/// After a crash a page is in its file or in the log.
fn checkpointed(run: &Run<Files>, retries: bool) -> Result<(), String> {
    let told = |error: Error| error.to_string();
    let set_up = || {
        run.write("/data", sectors("A"))?;
        run.write("/log", sectors("B"))?;
        run.settle()
    };
    let is_set_up = set_up().is_ok();
    if is_set_up {
        run.configure(config().sync(half())).map_err(told)?;
        let _ = checkpoint(run, retries);
    }
    run.restart().map_err(told)?;
    let found = [letters(run, "/data"), letters(run, "/log")].map(Result::unwrap);
    if is_set_up && !found.contains(&"B".to_owned()) {
        return Err(format!("{found:?} are left"));
    }
    Ok(())
}

/// The bug of PostgreSQL until 2018.
#[test]
fn a_failed_sync_that_is_tried_again() {
    for profile in Profile::ALL {
        let of = |does, retries| {
            let builder = builder(profile).failed_sync(does);
            explored_with(&builder, |run| checkpointed(run, retries))
        };
        let dropped = of(FailedSync::Drops, true);
        assert!(
            dropped
                .clone()
                .is_err_and(|(_, error)| error.starts_with("[\"A\"")),
            "{profile:?}: {dropped:?}"
        );
        for (does, retries) in [(FailedSync::Keeps, true), (FailedSync::Drops, false)] {
            let found = of(does, retries);
            assert!(found.is_ok(), "{profile:?}: {found:?}");
        }
    }
}

#[test]
fn seeds_find_the_same_bug() {
    let builder = builder(Profile::Xfs);
    let body = |forgets| {
        move |run: &Run<Files>| {
            run.crash_after(run.choose(12) as u64)
                .map_err(|error| error.to_string())?;
            replacement(run, forgets)
        }
    };
    let visited = seeds(&builder, 0..200, body(Forgets::Nothing)).unwrap();
    assert_eq!((visited.runs, visited.is_complete), (200, false));
    let failed = seeds(&builder, 0..200, body(Forgets::Sync));
    let Err(ExploreError::Failed { run, script, .. }) = failed else {
        panic!("{failed:?}");
    };
    // The run of the seed 0 is the first one.
    assert!(
        script.starts_with(&format!("seed {}\n", run - 1)),
        "{script}"
    );
    // The same seed again.
    let again = seeds(&builder, run - 1..run, body(Forgets::Sync));
    assert!(
        matches!(again, Err(ExploreError::Failed { run: 1, script: same, .. }) if same == script)
    );
}
