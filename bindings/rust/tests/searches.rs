//! What searches begin with and say: torn writes of files, unsynced writes that no crash could keep, and a search in each profile.
#[allow(dead_code)]
mod sectors;

use blobcrash::files::{Files, Profile, Syncs, each_profile};
use blobcrash::{
    Blob, Config, Error, Explored, PartialWriteMode, Probability, Run, Store, WriteConfig,
    WriteOptions, explore, seeds,
};
use std::collections::BTreeSet;
use std::io::{self, Write};

const NONE: &str = "no unsynced write could be kept: set `write 0 1 1 2 sectors 512`";
const SOME: &str = "some unsynced writes could not be kept: set `write 0 1 1 2 sectors 512`";

fn writes(retention_rate: Probability) -> Config {
    Config::default().write(WriteConfig {
        failure_rate: Probability::ZERO,
        retention_rate,
        mode: PartialWriteMode::Prefix,
    })
}

fn half() -> Config {
    writes(sectors::half())
}

/// Overwrites a file of two sectors of 512 bytes. Returns a letter for each.
fn overwrites(files: &Run<Files>) -> io::Result<String> {
    files.write("/f", sectors::sectors("AA"))?;
    files.settle()?;
    files
        .options()
        .write(true)
        .open("/f")?
        .write_all(&sectors::sectors("BB"))?;
    files.crash()?;
    Ok(sectors::letters(files, "/f")?)
}

fn found<T>(visited: &Explored<T>) -> BTreeSet<&T>
where
    T: Ord,
{
    visited.outcomes.keys().collect()
}

/// By hand: each of the two sectors is kept or lost.
#[test]
fn files_are_torn() {
    let every = ["AA", "AB", "BA", "BB"].map(str::to_owned);
    for profile in Profile::ALL {
        let builder = Files::builder().profile(profile);
        let visited = explore(&builder, u64::MAX, overwrites).unwrap();
        assert_eq!((visited.runs, found(&visited)), (4, every.iter().collect()));
        assert_eq!(visited.to_string(), "4 runs, all of them");
        let visited = seeds(&builder, 0..50, overwrites).unwrap();
        assert_eq!(
            (found(&visited), visited.unkept),
            (every.iter().collect(), "")
        );
    }
}

#[test]
fn a_setting_says_otherwise() {
    let lost = ["AA".to_owned()];
    for builder in [
        Files::builder().config(writes(Probability::ZERO)),
        Files::builder().lines(&["config write 0 1 0 1 prefix"]),
    ] {
        let visited = explore(&builder, u64::MAX, overwrites).unwrap();
        assert_eq!(
            (found(&visited), visited.unkept),
            (lost.iter().collect(), NONE)
        );
        assert_eq!(visited.to_string(), format!("1 run, all of them; {NONE}"));
    }
    let builder = Files::builder().config(Config::default().read(Probability::ZERO));
    assert_eq!(explore(&builder, u64::MAX, overwrites).unwrap().runs, 4);
    // Files of their own begin without such a setting.
    let files = Files::builder().seed(1).open().unwrap();
    files.write("/f", b"abc").unwrap();
    assert_eq!(files.crash().unwrap().writes.len(), 1);
}

/// What an exploration of a store says, and what 3 seeds say.
fn said(config: Config, body: impl Fn(&Run) -> Result<(), Error>) -> &'static str {
    let builder = Store::builder().config(config);
    let visited = explore(&builder, 1000, &body).unwrap();
    let by_seeds = seeds(&builder, 0..3, &body).unwrap();
    assert_eq!(visited.unkept, by_seeds.unkept);
    visited.unkept
}

#[test]
fn stores_say_what_could_not_be_kept() {
    type Step = fn(&Run, Blob) -> Result<(), Error>;
    let steps: [(&str, Step); 8] = [
        (NONE, |_, _| Ok(())),
        ("", |_, blob| blob.sync()),
        ("", |_, blob| blob.start_sync()?.finish()),
        ("", |run, _| run.call("sync 0").map(drop)),
        ("", |run, blob| {
            drop(blob);
            run.open("p", b"b").map(drop)
        }),
        ("", |run, _| run.reopen()),
        (NONE, |run, blob| {
            run.configure(Config::default().sync(Probability::ONE))?;
            assert_eq!(blob.sync(), Err(Error::Injected));
            Ok(())
        }),
        (SOME, |run, blob| {
            run.configure(half())?;
            blob.write_at(1, b"b", WriteOptions::default())
        }),
    ];
    for (at, (wanted, step)) in steps.into_iter().enumerate() {
        for by_line in [false, true] {
            let text = said(Config::default(), |run| {
                let (blob, _) = run.open("p", b"b")?;
                if by_line {
                    run.call("write 0 0 61")?;
                } else {
                    blob.write_at(0, b"a", WriteOptions::default())?;
                }
                step(run, blob)?;
                run.crash().map(drop)
            });
            assert_eq!(text, wanted, "{at}");
        }
    }
    let torn = said(half(), |run| {
        run.open("p", b"b")?
            .0
            .write_at(0, b"a", WriteOptions::default())?;
        run.crash().map(drop)
    });
    let synced = said(Config::default(), |run| {
        run.open("p", b"b")?
            .0
            .write_at(0, b"a", WriteOptions::SYNC)?;
        run.crash().map(drop)
    });
    assert_eq!((torn, synced), ("", ""));
}

#[test]
fn files_say_what_could_not_be_kept() {
    type Step = fn(&Run<Files>) -> io::Result<()>;
    let steps: [(&str, Step); 5] = [
        (NONE, |_| Ok(())),
        ("", |files| Ok(files.open("/f")?.sync_all()?)),
        (NONE, |files| Ok(files.create("/g")?.sync_data()?)),
        ("", |files| Ok(files.sync()?)),
        ("", |files| Ok(files.settle()?)),
    ];
    for (at, (wanted, step)) in steps.into_iter().enumerate() {
        for syncs in [Syncs::Honest, Syncs::Lie] {
            let builder = Files::builder().profile(Profile::Posix).syncs(syncs);
            let builder = builder.config(writes(Probability::ZERO));
            let visited = explore(&builder, 1000, |files| {
                files.write("/f", b"a")?;
                step(files)?;
                files.crash()?;
                Ok::<_, io::Error>(())
            });
            let lies = syncs == Syncs::Lie && at < 4;
            let wanted = if lies { NONE } else { wanted };
            assert_eq!(visited.unwrap().unkept, wanted, "{at} {syncs:?}");
        }
    }
}

/// By hand, from docs/FILES.md: only on ext4 a file that replaces another is as long as it was at the rename.
#[test]
fn each_profile_that_fails() {
    let search = |syncs: bool| {
        each_profile(|profile| {
            explore(&Files::builder().profile(profile), 1000, |files| {
                files.write("/f", b"old")?;
                files.settle()?;
                let mut new = files.create("/new")?;
                new.write_all(b"new")?;
                if syncs {
                    new.sync_all()?;
                }
                files.rename("/new", "/f")?;
                files.crash()?;
                match files.read("/f")?.len() {
                    3 => Ok(()),
                    _ => Err(io::Error::other("damaged")),
                }
            })
        })
    };
    let failed = search(false).unwrap_err();
    let names: Vec<_> = failed.failed.iter().map(|(profile, _)| *profile).collect();
    assert_eq!(names, [Profile::Xfs, Profile::Btrfs, Profile::Posix]);
    let text = failed.to_string();
    assert!(
        text.starts_with("it failed with 3 of 4 profiles, not with ext4\nxfs: run "),
        "{text}"
    );
    assert!(
        text.contains("\nposix: run ") && text.contains("profile posix\n"),
        "{text}"
    );
    assert_eq!(search(true).unwrap().len(), 4);
}
