//! Runs of many seeds.
use crate::explore::nothing_to_run;
use crate::limits::Limits;
use crate::paths::Words;
use crate::unsynced::Met;
use crate::{Explorable, ExploreError, Explored, Run};
use std::ops::Range;

/// Calls `body` with a new store, or new [`files`](crate::files), for each seed. The seed decides every draw and every [`Run::choose`].
///
/// Errors:
/// - `Failed` for the first seed with which the body returns an error. Its script has the seed.
/// - `Store` with `Argument` if there are no seeds or the builder has a seed or words, or with what its `open` returns.
///
/// ```
/// use blobcrash::{Config, Error, PartialWriteMode, Probability, Store, WriteConfig, WriteOptions, seeds};
///
/// let half = Config::default().write(WriteConfig {
///     failure_rate: Probability::ZERO,
///     retention_rate: Probability::new(1, 2).unwrap(),
///     mode: PartialWriteMode::Prefix,
/// });
/// let visited = seeds(&Store::builder().config(half), 0..100, |run| {
///     let (blob, _) = run.open("p", b"b")?;
///     blob.write_at(0, b"ab", WriteOptions::default())?;
///     run.restart()?;
///     Ok::<_, Error>(run.open("p", b"b")?.1)
/// });
/// assert_eq!(visited.unwrap().outcomes.into_keys().collect::<Vec<_>>(), [0, 1, 2]);
/// ```
pub fn seeds<B: Explorable, T: Ord, E>(
    builder: &B,
    seeds: Range<u64>,
    mut body: impl FnMut(&Run<B::Opened>) -> Result<T, E>,
) -> Result<Explored<T>, ExploreError<E>> {
    if seeds.is_empty() {
        return Err(nothing_to_run());
    }
    let mut visited = Explored::new();
    let mut met = Met::default();
    for seed in seeds {
        let builder = builder.prepared(Some(seed))?;
        let limits = Limits {
            chooser: Some(seed),
            ..Limits::default()
        };
        let run = Run::new(builder.made(Words::default(), limits)?, visited.runs + 1);
        let result = body(&run);
        met.add(run.met());
        visited.add(&run, result, |_| format!("seed {seed}"))?;
    }
    visited.unkept = met.note();
    Ok(visited)
}
