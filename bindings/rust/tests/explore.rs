//! Each outcome of small runs, and what can't be explored.
use blobcrash::Exploration;
use blobcrash::{
    Config, Error, ExploreError, Explored, PartialWriteMode, Probability, ResizeConfig, Run, Store,
    WriteConfig, WriteOptions, explore, run_script, seeds,
};
use std::collections::BTreeMap;
use std::panic::{AssertUnwindSafe, catch_unwind};

fn half() -> Probability {
    Probability::new(1, 2).unwrap()
}

fn config(mode: PartialWriteMode) -> Config {
    Config::default().write(WriteConfig {
        failure_rate: Probability::ZERO,
        retention_rate: half(),
        mode,
    })
}

/// Overwrites synced bytes, and crashes. Returns what is left.
fn torn(store: &Store, len: usize) -> Result<Vec<u8>, Error> {
    let (blob, _) = store.open("p", b"b")?;
    blob.write_at(0, &vec![b'a'; len], WriteOptions::SYNC)?;
    blob.write_at(0, &vec![b'b'; len], WriteOptions::default())?;
    store.restart()?;
    let (blob, size) = store.open("p", b"b")?;
    blob.read_at(0, size as usize)
}

fn outcomes(
    mode: PartialWriteMode,
    body: impl Fn(&Run) -> Result<Vec<u8>, Error>,
) -> BTreeMap<Vec<u8>, u64> {
    let builder = Store::builder().config(config(mode));
    let visited = explore(&builder, u64::MAX, body).unwrap();
    assert!(visited.is_complete);
    assert_eq!(visited.runs, visited.outcomes.values().sum::<u64>());
    visited.outcomes
}

#[test]
fn each_outcome_once() {
    let prefix = outcomes(PartialWriteMode::Prefix, |run| torn(run, 8));
    let expected = (0..=8).map(|kept| ([vec![b'b'; kept], vec![b'a'; 8 - kept]].concat(), 1));
    assert_eq!(prefix, expected.collect());
    assert_eq!(
        outcomes(PartialWriteMode::Subset, |run| torn(run, 4)).len(),
        16
    );
    assert_eq!(
        outcomes(PartialWriteMode::Sectors(4), |run| torn(run, 8)).len(),
        4
    );
}

#[test]
fn choices_with_the_draws() {
    let seen = outcomes(PartialWriteMode::Prefix, |run| {
        let len = run.choose(3) + 1;
        let found = torn(run, len)?;
        Ok([found, vec![run.choose(2) as u8]].concat())
    });
    assert_eq!(seen.len(), (2 + 3 + 4) * 2);
    assert!(seen.values().all(|runs| *runs == 1));
}

#[test]
fn a_failure_has_its_script() {
    let builder = Store::builder().config(config(PartialWriteMode::Prefix));
    let failed = explore(&builder, u64::MAX, |run| {
        match torn(run, 3).unwrap().as_slice() {
            b"bba" => Err("torn"),
            _ => Ok(()),
        }
    });
    let Err(ExploreError::Failed {
        error, run, script, ..
    }) = failed
    else {
        panic!("{failed:?}");
    };
    assert_eq!((error, run), ("torn", 2));
    assert!(
        script.starts_with("words 0 0 max\nconfig write 0 1 1 2 prefix\n"),
        "{script}"
    );
    let replies = String::from_utf8(run_script(script.as_bytes()).unwrap()).unwrap();
    assert!(replies.contains("crashed 0:110\n"), "{replies}");
}

#[test]
fn limits() {
    let builder = Store::builder().config(config(PartialWriteMode::Prefix));
    let visit = |limit| explore(&builder, limit, |run| torn(run, 8).map(|_| ())).unwrap();
    for (limit, runs, is_complete) in [(4, 4, false), (9, 9, true), (10, 9, true)] {
        let Explored {
            runs: made,
            outcomes,
            is_complete: is_all,
            ..
        } = visit(limit);
        assert_eq!((made, is_all), (runs, is_complete));
        assert_eq!(outcomes.values().sum::<u64>(), runs);
    }
}

#[test]
fn more_words_than_at_first() {
    assert_eq!(
        outcomes(PartialWriteMode::Prefix, |run| torn(run, 300)).len(),
        301
    );
}

#[test]
fn a_body_that_is_not_deterministic() {
    let builder = Store::builder().config(config(PartialWriteMode::Prefix));
    let mut len = 9;
    let visited = explore(&builder, u64::MAX, |run| {
        len -= 4;
        torn(run, len).map(|_| ())
    });
    assert_eq!(visited, Err(ExploreError::NotDeterministic));
    let mut is_first = true;
    let visited = explore(&builder, u64::MAX, |run| {
        if std::mem::take(&mut is_first) {
            let _ = run.choose(3);
            return Ok(());
        }
        torn(run, 3).map(|_| ())
    });
    assert_eq!(visited, Err(ExploreError::NotDeterministic));
}

fn failing_syncs(rate: Probability) -> Exploration {
    Exploration::of(&Store::builder().config(Config::default().sync(rate)))
}

type Body = fn(&Run) -> Result<(), Error>;

/// Tries a sync until it succeeds.
fn retries(run: &Run) -> Result<(), Error> {
    let (blob, _) = run.open("p", b"b")?;
    while blob.sync().is_err() {}
    Ok(())
}

#[test]
fn a_body_that_retries_for_ever() {
    let found = failing_syncs(half()).visit(retries);
    let Err(ExploreError::TooLong { run, most, script }) = &found else {
        panic!("{found:?}");
    };
    assert_eq!((*run, *most), (1, 10_000));
    assert!(script.starts_with("words 0 0 "), "{script:.40}");
    assert_eq!(
        script.lines().filter(|line| *line == "sync 0").count(),
        9999
    );
    let replies = String::from_utf8(run_script(script.as_bytes()).unwrap()).unwrap();
    assert_eq!(replies.matches("error Injected\n").count(), 9999);
    let text = found.unwrap_err().to_string();
    let why = "a loop that retries until it succeeds never ends when every try fails; bound it";
    assert!(text.contains(why) && text.len() < 40_000, "{text:.200}");

    // What needs no draw, has no power, is stale, or is a choice.
    let bodies: [Body; 4] = [
        retries,
        |run| {
            while run.open("p", b"b").is_err() {}
            Ok(())
        },
        |run| {
            let (blob, _) = run.open("p", b"b")?;
            run.restart()?;
            while blob.size().is_err() {}
            Ok(())
        },
        |run| {
            while run.choose(2) == 0 {}
            Ok(())
        },
    ];
    for body in bodies {
        let always = failing_syncs(Probability::ONE).calls_per_run(50);
        let found = always.power_losses(1).visit(body);
        assert!(
            matches!(found, Err(ExploreError::TooLong { most: 50, .. })),
            "{found:?}"
        );
    }
}

#[test]
fn how_long_a_run_may_be() {
    let crashes = |times: u32| move |run: &Run| (0..times).try_for_each(|_| run.crash().map(drop));
    let ten = Exploration::of(&Store::builder()).calls_per_run(10);
    assert_eq!(ten.visit(crashes(10)).unwrap().runs, 1);
    assert!(matches!(
        ten.visit(crashes(11)),
        Err(ExploreError::TooLong { run: 1, .. })
    ));
    // A crash takes as many draws as the bytes that it draws for.
    let builder = Store::builder().config(config(PartialWriteMode::Prefix));
    let of = |calls| Exploration::of(&builder).calls_per_run(calls);
    assert_eq!(of(300).visit(|run| torn(run, 300)).unwrap().runs, 301);
    let found = of(299).visit(|run| torn(run, 300));
    assert!(matches!(found, Err(ExploreError::TooLong { run: 1, .. })));
    let found = of(9).visit(|run| torn(run, 300));
    assert!(matches!(found, Err(ExploreError::TooLong { run: 1, .. })));
}

#[test]
fn what_a_body_drops_while_its_run_is_ended() {
    // A started sync and a blob are dropped: their last calls return an error, and don't panic again.
    let found = failing_syncs(half()).calls_per_run(20).visit(|run| {
        let (blob, _) = run.open("p", b"b")?;
        let _started = blob.start_sync()?;
        while blob.sync().is_err() {}
        Ok::<_, Error>(())
    });
    assert!(matches!(found, Err(ExploreError::TooLong { .. })));
    // The limit is reached at any call, also at that of a drop or of a finished sync.
    for calls in 0..20 {
        let found = failing_syncs(half()).calls_per_run(calls).visit(|run| {
            loop {
                let (blob, _) = run.open("p", b"b")?;
                let _ = blob.start_sync().map(|started| started.finish());
                let _dropped = (blob.start_sync(), blob);
            }
            #[allow(unreachable_code)]
            Ok::<_, Error>(())
        });
        assert!(
            matches!(found, Err(ExploreError::TooLong { .. })),
            "{found:?}"
        );
    }
    // A body that catches the unwinding is found out all the same, and so is one that does it on a thread of its own.
    let found = failing_syncs(half()).calls_per_run(20).visit(|run| {
        let caught = catch_unwind(AssertUnwindSafe(|| retries(run)));
        assert!(caught.is_err());
        Ok::<_, Error>(())
    });
    assert!(matches!(found, Err(ExploreError::TooLong { .. })));
    let found = failing_syncs(half()).calls_per_run(20).visit(|run| {
        let _ = std::thread::scope(|scope| scope.spawn(|| retries(run)).join());
        Ok::<_, Error>(())
    });
    assert!(matches!(found, Err(ExploreError::TooLong { .. })));
    // A store that the body keeps may be used when its run has ended, however often.
    let mut kept = None;
    let found = failing_syncs(half()).calls_per_run(20).visit(|run| {
        kept = Some(Store::clone(run));
        retries(run)
    });
    assert!(matches!(found, Err(ExploreError::TooLong { .. })));
    let kept = kept.unwrap();
    assert!((0..50).all(|_| kept.crash().is_ok()));
    // A panic of a body is the caller's, as before.
    let panics = catch_unwind(|| {
        failing_syncs(half()).visit(|_| -> Result<(), Error> { panic!("by the body") })
    });
    assert_eq!(panics.unwrap_err().downcast_ref(), Some(&"by the body"));
}

#[test]
fn what_is_refused() {
    let never = |_: &Run| -> Result<(), Error> { panic!("the body is called") };
    for builder in [
        Store::builder().seed(7),
        Store::builder().words(&[0]),
        Store::builder().lines(&["seed 7"]),
        Store::builder().image("p p", b"", b""),
    ] {
        let refused = explore(&builder, 1, never);
        assert!(
            matches!(refused, Err(ExploreError::Store(Error::Argument(_)))),
            "{refused:?}"
        );
    }
}

/// A failing resize that may stop between stops at each size once. By hand, of one from 2 to 6 bytes and back to 1: it is done, and then
/// survives a crash or not, or it fails and stays, or it fails and stops at 3, 4 or 5 bytes; then from each of these sizes alike.
#[test]
fn partial_resizes_stop_at_each_size() {
    let config = Config::default().resize(ResizeConfig {
        failure_rate: half(),
        partial_rate: half(),
    });
    let mut ends = BTreeMap::new();
    let visited = explore(&Store::builder(), 99, |run| {
        let (blob, _) = run.open("p", b"a")?;
        blob.resize(2)?;
        run.configure(config)?;
        let grown = blob.resize(6).is_ok();
        let between = blob.size()?;
        let cut = run.call("resize 0 1")? == "ok";
        *ends.entry((grown, between, cut, blob.size()?)).or_insert(0) += 1;
        Ok::<(), Error>(())
    });
    let mut wanted = BTreeMap::new();
    for (grown, between) in [(true, 6), (false, 2), (false, 3), (false, 4), (false, 5)] {
        let leaves = if grown { 2 } else { 1 };
        wanted.insert((grown, between, true, 1), 2 * leaves);
        for end in 2..=between {
            // There is no size between 2 and 1, so it stays whether it is partial or not.
            let fates = if between == 2 { 2 } else { 1 };
            wanted.insert((grown, between, false, end), fates * leaves);
        }
    }
    assert_eq!(visited.unwrap().runs, wanted.values().sum::<u64>());
    assert_eq!(ends, wanted);
}

#[test]
fn each_seed_once() {
    let builder = Store::builder().config(config(PartialWriteMode::Prefix));
    let body = |run: &Run| Ok::<_, Error>((run.choose(4), torn(run, 3)?));
    let visited = seeds(&builder, 0..200, body).unwrap();
    assert_eq!((visited.runs, visited.is_complete), (200, false));
    // Every branch, with every prefix.
    assert_eq!(visited.outcomes.len(), 16);
    assert_eq!(seeds(&builder, 0..200, body), Ok(visited.clone()));
    let some = seeds(&builder, 7..9, body).unwrap();
    assert_eq!(some.runs, 2);
    assert!(
        some.outcomes
            .keys()
            .all(|seen| visited.outcomes.contains_key(seen))
    );
    let is_refused = |found| matches!(found, Err(ExploreError::Store(Error::Argument(_))));
    assert!(is_refused(seeds(&builder, 9..9, body)));
    assert!(is_refused(explore(&builder, 0, body)));
}

#[test]
fn a_seed_that_fails() {
    let builder = Store::builder().config(config(PartialWriteMode::Prefix));
    let found = seeds(&builder, 5..200, |run| {
        let branch = run.choose(2);
        match torn(run, 3)?.as_slice() {
            b"bba" => Err(Error::Argument(format!("torn after {branch}"))),
            _ => Ok(()),
        }
    });
    let Err(ExploreError::Failed {
        error, run, script, ..
    }) = found
    else {
        panic!("{found:?}");
    };
    let seed = 5 + run - 1;
    let begin = format!("seed {seed}\nconfig write 0 1 1 2 prefix\n# choose(2) is ");
    assert!(script.starts_with(&begin), "{script}");
    let replies = String::from_utf8(run_script(script.as_bytes()).unwrap()).unwrap();
    assert!(replies.contains("crashed 0:110\n"), "{replies}");
    let branch = &script[begin.len()..][..1];
    assert_eq!(error, Error::Argument(format!("torn after {branch}")));
    for builder in [Store::builder().seed(7), Store::builder().words(&[0])] {
        let refused = seeds(&builder, 0..1, |_| Ok::<_, Error>(()));
        assert!(matches!(
            refused,
            Err(ExploreError::Store(Error::Argument(_)))
        ));
    }
}
