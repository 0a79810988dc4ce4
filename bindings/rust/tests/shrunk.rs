//! Paths of failures, smaller runs, and restarts in a state that was met before.
use blobcrash::files::{self, Files, Profile};
use blobcrash::{
    Config, Error, Exploration, ExploreError, PartialWriteMode, Probability, ResizeConfig, Run,
    Store, WriteConfig, WriteOptions, explore, run_script, seeds, shrink,
};

fn half() -> Probability {
    Probability::new(1, 2).unwrap()
}

fn torn(mode: PartialWriteMode) -> blobcrash::Builder {
    Store::builder().config(Config::default().write(WriteConfig {
        failure_rate: Probability::ZERO,
        retention_rate: half(),
        mode,
    }))
}

/// The path and the script of a failure.
fn parts<T: std::fmt::Debug, E: std::fmt::Debug>(
    failed: Result<T, ExploreError<E>>,
) -> (ExploreError<E>, String, String) {
    let failed = failed.unwrap_err();
    let ExploreError::Failed { path, script, .. } = &failed else {
        panic!("{failed:?}");
    };
    let (path, script) = (path.to_string(), script.clone());
    (failed, path, script)
}

/// Writes some bytes, and fails if all are lost.
fn loses_all(run: &Run) -> Result<(), &'static str> {
    let skipped = run.choose(2);
    for at in 0..run.choose(3) {
        let (blob, _) = run.open("p", &[at as u8]).unwrap();
        blob.write_at(0, b"ab", WriteOptions::default()).unwrap();
    }
    run.restart().unwrap();
    let (_, size) = run.open("p", &[0]).unwrap();
    if skipped == 1 && size == 0 {
        Err("lost")
    } else {
        Ok(())
    }
}

#[test]
fn a_path_names_its_run() {
    let builder = torn(PartialWriteMode::Prefix);
    let (_, path, script) = parts(explore(&builder, u64::MAX, loses_all));
    assert_eq!(path, "1/2 0/3");
    let again = Exploration::of(&builder).under(&path).visit(loses_all);
    let (_, same, again) = parts(again);
    assert_eq!((same, again), (path, script));
    // By hand: with two blobs each has three prefixes.
    let below = Exploration::of(&builder)
        .under("0/2 2/3")
        .visit(loses_all)
        .unwrap();
    assert_eq!((below.runs, below.is_complete), (9, true));
    let passes = Exploration::of(&builder)
        .under("1/2 1/3 0")
        .visit(loses_all)
        .unwrap();
    assert_eq!(passes.runs, 2);
    for bad in ["2/2", "maximum", "1:1"] {
        let refused = Exploration::of(&builder).under(bad).visit(loses_all);
        assert!(
            matches!(refused, Err(ExploreError::Store(Error::Argument(_)))),
            "{bad}"
        );
    }
}

#[test]
fn the_run_of_a_seed_gets_smaller() {
    let builder = torn(PartialWriteMode::Subset);
    let (failed, path, _) = parts(seeds(&builder, 0..500, |run| {
        if run.choose(3) == 0 {
            return Ok(());
        }
        loses_all(run)
    }));
    assert!(path.starts_with("seed "), "{path}");
    let shrunk = shrink(&builder, &failed, 5000, |run| {
        if run.choose(3) == 0 {
            return Ok(());
        }
        loses_all(run)
    })
    .unwrap();
    // By hand: nothing is written.
    assert_eq!(
        (shrunk.path.as_str(), shrunk.error, shrunk.is_least),
        ("1/3 1/2 0/3", "lost", true)
    );
    let calls: Vec<&str> = shrunk
        .script
        .lines()
        .filter(|line| !line.starts_with(['#', 'c']))
        .collect();
    assert_eq!(calls, ["reopen", "open p 00 0 0"]);
}

#[test]
fn fewer_power_losses() {
    // The second of two synced blobs is lost by a power loss, whatever an earlier one did.
    let body = |run: &Run| {
        let write = |name: &[u8]| run.open("p", name)?.0.write_at(0, b"x", WriteOptions::SYNC);
        let _ = write(b"a");
        if run.is_power_off() {
            run.restart()?;
            let _ = write(b"a");
        }
        let _ = write(b"b");
        let is_off = run.is_power_off();
        run.restart()?;
        let (_, size) = run.open("p", b"b")?;
        if is_off && size == 0 {
            Err(Error::Injected)
        } else {
            Ok(())
        }
    };
    let builder = Store::builder();
    let exploration = Exploration::of(&builder).power_losses(2);
    let with_two = exploration.clone().under("off on on off").visit(body);
    let (failed, path, _) = parts(with_two);
    assert_eq!(path, "off on on off");
    let shrunk = shrink(&builder, &failed, 1000, body).unwrap();
    // One power loss, at the open of the second blob.
    assert_eq!(shrunk.path, "on on off");
    let (_, again, script) = parts(exploration.under(&shrunk.path).visit(body));
    // Without a further loss the power stays on.
    assert_eq!((again.as_str(), script), ("on on off on", shrunk.script));
}

#[test]
fn files_get_fewer_calls() {
    let builder = Files::builder().profile(Profile::Posix);
    let body = |files: &Run<Files>| {
        for at in 0..files.choose(4) {
            files.create_dir(format!("/d{at}"))?;
        }
        files.crash()?;
        if files.exists("/d1")? && !files.exists("/d0")? {
            Err(Error::Loop)
        } else {
            Ok(())
        }
    };
    let (failed, ..) = parts(seeds(&builder, 0..200, body));
    let shrunk = shrink(&builder, &failed, 1000, body).unwrap();
    assert_eq!(
        (shrunk.path.as_str(), shrunk.error),
        ("2/4 max 0", Error::Loop)
    );
    assert_eq!(shrunk.script.matches("mkdir").count(), 2);
    let _: &files::Builder = &builder;
}

#[test]
fn limits_and_other_failures() {
    let builder = torn(PartialWriteMode::Subset);
    let (failed, ..) = parts(seeds(&builder, 0..500, loses_all));
    let limited = shrink(&builder, &failed, 3, loses_all).unwrap();
    assert!(limited.runs <= 4 && !limited.is_least, "{limited:?}");
    let passes = shrink(&builder, &failed, 10, |_| Ok::<(), &'static str>(()));
    assert!(matches!(passes, Err(Error::Argument(text)) if text.contains("doesn't fail again")));
    let none = shrink(&builder, &ExploreError::NotDeterministic, 10, loses_all);
    assert!(matches!(none, Err(Error::Argument(_))));
    // An error of another variant isn't the same failure.
    let body = |run: &Run| match run.choose(5) {
        0 => Ok(()),
        4 => Err(Error::Loop),
        _ => Err(Error::Injected),
    };
    let (failed, ..) = parts(Exploration::of(&builder).under("4/5").visit(body));
    assert_eq!(shrink(&builder, &failed, 100, body).unwrap().path, "4/5");
    // A smaller run that never ends doesn't count.
    let body = |run: &Run| {
        if run.choose(2) == 1 {
            return Err::<(), _>("stopped");
        }
        loop {
            let _ = run.scan("p");
        }
    };
    let (failed, ..) = parts(Exploration::of(&builder).under("1/2").visit(body));
    assert_eq!(shrink(&builder, &failed, 100, body).unwrap().path, "1/2");
}

#[test]
fn a_script_has_the_word_of_a_drawn_size() {
    let partial = ResizeConfig {
        failure_rate: Probability::ONE,
        partial_rate: Probability::ONE,
    };
    let builder = Store::builder().config(Config::default().resize(partial));
    let body = |run: &Run| {
        let (blob, _) = run.open("p", b"b").unwrap();
        assert!(blob.resize(9).is_err());
        match blob.size() {
            Ok(5) => Err("five"),
            _ => Ok(()),
        }
    };
    let (failed, path, script) = parts(explore(&builder, u64::MAX, body));
    // The sizes from 1 to 8: that of index 4.
    assert_eq!(path, "4:8");
    let replies = String::from_utf8(run_script(script.as_bytes()).unwrap()).unwrap();
    assert!(
        replies.contains("error Injected\nsize 5\n"),
        "{script}{replies}"
    );
    assert_eq!(shrink(&builder, &failed, 100, body).unwrap().path, "4:8");
}

/// Writes the same byte twice, restarts and writes once more.
fn twice(run: &Run, restart: impl Fn(&Run, u64) -> Result<(), Error>) -> Result<Vec<u8>, Error> {
    for at in 0..2 {
        let (blob, _) = run.open("p", b"b")?;
        blob.write_at(at, b"a", WriteOptions::default())?;
        restart(run, at)?;
    }
    run.raw_blob("p", b"b").map(Option::unwrap)
}

#[test]
fn restarts_in_a_state_that_was_met() {
    let builder = torn(PartialWriteMode::Subset);
    let all = explore(&builder, u64::MAX, |run| {
        twice(run, |run, _| run.restart().map(drop))
    })
    .unwrap();
    let met = explore(&builder, u64::MAX, |run| {
        twice(run, |run, at| run.restart_expecting(at))
    })
    .unwrap();
    // By hand: a byte is kept or lost, twice. What is left is nothing, `a`, `a` after a zero, or both.
    assert_eq!((all.runs, all.met, all.outcomes.len()), (4, 0, 4));
    assert_eq!((met.runs, met.met), (4, 0));
    assert!(met.outcomes.keys().eq(all.outcomes.keys()));
    let same = |run: &Run, expected: u64| {
        let (blob, _) = run.open("p", b"b")?;
        blob.write_at(0, b"a", WriteOptions::SYNC)?;
        blob.write_at(0, b"a", WriteOptions::default())?;
        run.restart_expecting(expected)?;
        run.open("p", b"b").map(|(_, size)| size)
    };
    let met = explore(&builder, u64::MAX, |run| same(run, 7)).unwrap();
    assert_eq!(
        (met.runs, met.met, met.to_string().as_str()),
        (
            1,
            1,
            "1 run, and 1 up to a restart in a state met before, all of them"
        )
    );
    // What is expected differs, or its type.
    let met = explore(&builder, u64::MAX, |run| same(run, run.choose(2) as u64)).unwrap();
    assert_eq!((met.runs, met.met), (2, 2));
    let met = explore(&builder, u64::MAX, |run| {
        let is_number = run.choose(2) == 0;
        run.open("p", b"b")?
            .0
            .write_at(0, b"a", WriteOptions::SYNC)?;
        let restart = |expected: u64| match is_number {
            true => run.restart_expecting(expected),
            false => run.restart_expecting(expected.to_string()),
        };
        restart(7)
    });
    assert_eq!(met.unwrap().met, 0);
}

#[test]
fn recoveries_in_a_state_that_was_met() {
    let builder = Store::builder();
    let body = |run: &Run, expects: bool| {
        let write = |store: &Store| {
            let (blob, _) = store.open("p", b"b")?;
            // A loss at the second one leaves the same bytes as one at the third.
            (0..3).try_for_each(|_| blob.write_at(0, b"abc", WriteOptions::SYNC))
        };
        let is_done = write(run).is_ok();
        let size = |store: &Store| store.open("p", b"b").map(|(_, size)| size);
        let size = if expects {
            run.recover_expecting(is_done, size)
        } else {
            run.recover(size)
        }?;
        assert!(size == 3 || !is_done);
        Ok::<_, Error>(size)
    };
    let exploration = Exploration::of(&builder).power_losses(2);
    let all = exploration.visit(|run| body(run, false)).unwrap();
    let met = exploration.visit(|run| body(run, true)).unwrap();
    assert!(
        met.outcomes.keys().eq(all.outcomes.keys()),
        "{met:?} {all:?}"
    );
    assert!(
        met.is_complete && met.met > 0 && met.runs + met.met <= all.runs,
        "{met:?} {all:?}"
    );
    let unrecorded = explore(&Store::builder().unrecorded(), 9, |run| {
        run.restart_expecting(1)
    });
    assert!(matches!(
        unrecorded,
        Err(ExploreError::Failed {
            error: Error::Argument(_),
            ..
        })
    ));
}
