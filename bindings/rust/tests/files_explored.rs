//! Explorations of files: what the profiles leave, failures, and what can't be explored.
mod sectors;

use blobcrash::files::{Builder, Files, Profile};
use blobcrash::{
    Config, Error, Exploration, ExploreError, Probability, ResizeConfig, Run, explore,
};
use sectors::{builder, half, letters, sectors};
use std::collections::BTreeSet;
use std::io::{self, Write};
use std::os::unix::fs::FileExt;

type Program = fn(&Files) -> io::Result<()>;

/// What the program leaves of `paths` after a crash, where `before` was durable.
fn left(profile: Profile, before: Program, program: Program, paths: &[&str]) -> BTreeSet<String> {
    let visited = explore(&builder(profile), u64::MAX, |files| {
        before(files)?;
        files.settle()?;
        program(files)?;
        files.crash()?;
        let found: Result<Vec<String>, Error> =
            paths.iter().map(|path| letters(files, path)).collect();
        Ok::<_, io::Error>(found?.join("/"))
    });
    let visited = visited.unwrap();
    assert!(visited.is_complete);
    visited.outcomes.into_keys().collect()
}

fn check(name: &str, [before, program]: [Program; 2], paths: &[&str], expected: [&[&str]; 4]) {
    for (profile, expected) in Profile::ALL.into_iter().zip(expected) {
        let expected = expected.iter().map(|text| (*text).to_owned()).collect();
        let found = left(profile, before, program, paths);
        assert_eq!(found, expected, "{name}, {profile:?}");
    }
}

/// Rows of the table in docs/FILES.md, worked out by hand.
#[test]
fn what_the_profiles_leave() {
    fn old(files: &Files) -> io::Result<()> {
        Ok(files.write("/f", sectors("AA"))?)
    }
    fn rename(files: &Files) -> io::Result<()> {
        files.write("/t", sectors("BB"))?;
        Ok(files.rename("/t", "/f")?)
    }
    fn append(files: &Files) -> io::Result<()> {
        files
            .options()
            .append(true)
            .open("/f")?
            .write_all(&sectors("BB"))
    }
    let holes: &[&str] = &["AA", "AAB", "AABB", "AA0B"];
    let zeros: &[&str] = &["AA", "AA0", "AA00", "AA0B", "AAB", "AAB0", "AABB"];
    check(
        "append",
        [old, append],
        &["/f"],
        [zeros, holes, zeros, zeros],
    );
    let long: &[&str] = &["AA", "00", "0B", "B0", "BB"];
    let short: &[&str] = &["AA", "BB", "B", "0B", ""];
    let either: &[&str] = &["AA", "00", "0B", "B0", "BB", "B", "0", ""];
    check(
        "rename",
        [old, rename],
        &["/f"],
        [long, short, either, either],
    );
    let synced: Program = |files| {
        let file = files.create("/t")?;
        file.write_all_at(&sectors("BB"), 0)?;
        file.sync_all()?;
        Ok(files.rename("/t", "/f")?)
    };
    check("fsync, rename", [old, synced], &["/f"], [&["AA", "BB"]; 4]);
    let made: Program = |files| {
        let file = files.create("/f")?;
        file.write_all_at(&sectors("BB"), 0)?;
        Ok(file.sync_all()?)
    };
    check(
        "fsync",
        [|_| Ok(()), made],
        &["/f"],
        [&["BB"], &["BB"], &["BB"], &["BB", "-"]],
    );
    let swapped: Program = |files| Ok(files.exchange("/f", "/g")?);
    let both: Program = |files| {
        files.write("/f", sectors("A"))?;
        Ok(files.write("/g", sectors("B"))?)
    };
    check(
        "exchange",
        [both, swapped],
        &["/f", "/g"],
        [&["A/B", "B/A"]; 4],
    );
}

/// The truncation is kept or lost, and so is each of the two sectors that are written after it. Except in XFS either may also be zeros.
/// A close changes nothing of it.
#[test]
fn a_file_that_is_written_in_place() {
    fn old(files: &Files) -> io::Result<()> {
        Ok(files.write("/f", sectors("AA"))?)
    }
    let closed: Program = |files| Ok(files.write("/f", sectors("BB"))?);
    let opened: Program = |files| {
        let file = files.create("/f")?;
        file.write_all_at(&sectors("BB"), 0)?;
        assert_eq!(files.metadata("/f")?.len(), 1024);
        files.crash()?;
        Ok(())
    };
    let holes: &[&str] = &["AA", "AB", "BA", "BB", "B", "0B", ""];
    let zeros: &[&str] = &[
        "AA", "AB", "BA", "BB", "A0", "0A", "00", "0B", "B0", "B", "0", "",
    ];
    for (name, program) in [("closed", closed), ("open", opened)] {
        check(
            name,
            [old, program],
            &["/f"],
            [zeros, holes, zeros, zeros],
        );
    }
}

#[test]
fn a_failure_has_its_words_and_calls() {
    let builder = builder(Profile::Posix).keep(half());
    let failed = explore(&builder, u64::MAX, |files| {
        files.create_dir("/a")?;
        files.create_dir("/b")?;
        assert_eq!(files.choose(1), 0);
        let kept = files.crash()?.edits;
        if kept == [false, true] {
            Err(Error::Loop)
        } else {
            Ok(())
        }
    });
    let Err(ExploreError::Failed {
        error, run, script, ..
    }) = failed
    else {
        panic!("{failed:?}");
    };
    assert_eq!((error, run), (Error::Loop, 3));
    let expected = "words max 0\nprofile posix\nkeep 1 2\nconfig write 0 1 1 2 sectors 512\n\
                    mkdir /a\nmkdir /b\n# choose(1) is 0\ncrash\n# of the unsettled edits it keeps 01\n\
                    # of write 0 it keeps none of 43\n# of write 1 it keeps bytes 0 to 42 of 43\n";
    assert_eq!(script, expected);
}

/// A truncation of four bytes that fails changes nothing, or stops at each length between.
#[test]
fn partial_truncations_stop_at_each_length() {
    let partial = ResizeConfig {
        failure_rate: half(),
        partial_rate: half(),
    };
    let builder = Files::builder().config(Config::default().resize(partial));
    let visited = explore(&builder, u64::MAX, |files| {
        let file = files.create("/f")?;
        file.write_all_at(b"abcd", 0)?;
        let is_done = file.set_len(0).is_ok();
        Ok::<_, io::Error>((is_done, file.metadata()?.len()))
    });
    let outcomes: BTreeSet<_> = visited.unwrap().outcomes.into_keys().collect();
    let expected = [(true, 0), (false, 1), (false, 2), (false, 3), (false, 4)];
    assert_eq!(outcomes, BTreeSet::from(expected));
}

type Body = fn(&Run<Files>) -> Result<(), Error>;

#[test]
fn what_can_not_be_explored() {
    let never = |_: &Run<Files>| -> Result<(), Error> { panic!("the body is called") };
    let refused: [Builder; 2] = [Files::builder().seed(7), Files::builder().words(&[0])];
    for builder in refused {
        let found = explore(&builder, 1, never);
        assert!(
            matches!(found, Err(ExploreError::Store(Error::Argument(_)))),
            "{found:?}"
        );
    }
    // A body that retries for ever: without power, and with a stale file.
    let bodies: [Body; 4] = [
        |run| {
            while run.create("/f").is_err() {}
            Ok(())
        },
        |run| {
            let file = run.create("/f")?;
            run.crash()?;
            while file.metadata().is_err() {}
            Ok(())
        },
        |run| {
            while run.choose(2) == 0 {}
            Ok(())
        },
        |run| {
            let file = run.create("/f")?;
            run.configure(Config::default().sync(Probability::ONE))?;
            while file.sync_all().is_err() {}
            Ok(())
        },
    ];
    for body in bodies {
        let found = Exploration::of(&Files::builder())
            .power_losses(1)
            .calls_per_run(50)
            .visit(body);
        assert!(
            matches!(found, Err(ExploreError::TooLong { most: 50, .. })),
            "{found:?}"
        );
    }
}

#[test]
fn a_loss_at_each_call() {
    // The power fails at the create, the write or the sync, or not at all; the crash's recovery has no call of its own. At the sync the
    // sector of the write is kept or lost, and so is that of the zeros by which the file grew.
    let builder = Files::builder().keep(Probability::ZERO);
    let visited = Exploration::of(&builder).power_losses(1).visit(|run| {
        let write = || -> io::Result<()> {
            let file = run.create_new("/f")?;
            file.write_all_at(b"a", 0)?;
            Ok(file.sync_all()?)
        };
        let is_done = write().is_ok();
        assert_eq!(run.is_power_off(), !is_done);
        run.crash()?;
        assert!(!run.is_power_off());
        Ok::<_, Error>((is_done, run.exists("/f")?))
    });
    let outcomes = visited.unwrap().outcomes;
    assert_eq!(
        outcomes.into_iter().collect::<Vec<_>>(),
        [((false, false), 6), ((true, true), 1)]
    );
}
