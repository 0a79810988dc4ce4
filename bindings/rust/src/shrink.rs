//! Smaller runs that fail.
use crate::choices::Choices;
use crate::limits::next;
use crate::path_text::choices_of;
use crate::replay::{Given, Replay};
use crate::{Error, Explorable, ExploreError, Run};
use std::mem::{Discriminant, discriminant};
use std::panic::{AssertUnwindSafe, catch_unwind, resume_unwind};

/// How many words a run is given at first after those that decide it.
const WORDS: usize = 64;
/// A run with other choices may take some more calls than the one that failed, until it ends: these, and as many again.
const MORE_CALLS: u64 = 1000;
/// How many lists of random draws are tried with smaller choices.
const RANDOM_DRAWS: u64 = 6;

/// The smallest run that was found.
///
/// ```
/// # use blobcrash::{Store, explore, shrink};
/// let body = |run: &blobcrash::Run| if run.choose(9) + run.choose(9) < 9 { Ok(()) } else { Err("nine") };
/// let failed = explore(&Store::builder(), 100, body).unwrap_err();
/// let shrunk = shrink(&Store::builder(), &failed, 1000, body).unwrap();
/// assert_eq!((shrunk.error, shrunk.path.as_str(), shrunk.is_least), ("nine", "1/9 8/9", true));
/// ```
#[derive(Clone, Debug, PartialEq, Eq)]
pub struct Shrunk<E> {
    /// What the body returned.
    pub error: E,
    /// The choices of the run, as those of [`ExploreError::Failed`]; or its words, if a draw took another one than 0 and the greatest.
    pub path: String,
    /// The calls of the run.
    pub script: String,
    /// How many runs were made.
    pub runs: u64,
    /// Whether the search ended by itself. It didn't if the limit was reached: there may be a smaller run.
    pub is_least: bool,
}

/// Calls `body` again with fewer and smaller choices, at most `limit` times, and returns the smallest run found that fails.
///
/// `failed` is what [`explore`](crate::explore()), an [`Exploration`](crate::Exploration) or [`seeds`](crate::seeds()) returned with the same
/// builder and body. A run is smaller if it makes fewer calls; then if it has fewer power losses, smaller results of [`Run::choose`], fewer
/// draws, and fewer of them true. It has to return an error of the same variant. A panic of the body isn't caught.
///
/// Errors:
/// - `Argument` if `failed` isn't `Failed`, or its run doesn't fail again.
/// - What the builder's `open` returns.
///
/// ```
/// use blobcrash::{Config, Error, PartialWriteMode, Probability, Run, Store, WriteConfig, WriteOptions, seeds, shrink};
///
/// let half = Store::builder().config(Config::default().write(WriteConfig {
///     failure_rate: Probability::ZERO,
///     retention_rate: Probability::new(1, 2).unwrap(),
///     mode: PartialWriteMode::Subset,
/// }));
/// // Of up to nine blobs each has a byte that isn't synced.
/// let body = |run: &Run| {
///     let count = run.choose(9);
///     let open = |at: usize| run.open("p", &[at as u8]).map(|(blob, size)| (blob, size == 1));
///     for at in 0..count {
///         open(at).and_then(|(blob, _)| blob.write_at(0, b"x", WriteOptions::default())).unwrap();
///     }
///     run.restart().unwrap();
///     if (0..count).all(|at| open(at).unwrap().1) { Ok(()) } else { Err("a byte is lost") }
/// };
/// let failed = seeds(&half, 0..100, body).unwrap_err();
/// let shrunk = shrink(&half, &failed, 1000, body).unwrap();
/// assert_eq!((shrunk.path.as_str(), shrunk.script.matches("write").count()), ("1/9 max", 2));
/// ```
pub fn shrink<B: Explorable, T, E>(
    builder: &B,
    failed: &ExploreError<E>,
    limit: u64,
    body: impl FnMut(&Run<B::Opened>) -> Result<T, E>,
) -> Result<Shrunk<E>, Error> {
    let ExploreError::Failed { error, path, .. } = failed else {
        return Err(Error::argument(
            "only a run that failed can be made smaller",
        ));
    };
    let mut search = Search {
        builder: builder.prepared(None)?,
        body,
        kind: discriminant(error),
        words: WORDS,
        runs: 0,
    };
    let mut made = search.first(path)?;
    let mut is_least = false;
    'smaller: while !is_least {
        let (most, decided) = (2 * made.calls + MORE_CALLS, made.given.clone());
        for given in smaller(&decided) {
            if search.runs >= limit {
                break 'smaller;
            }
            let other = search.made(|_| Replay::new(given.clone(), None), most)?;
            if let Some(other) = other.filter(|other| other.size() < made.size()) {
                made = other;
                continue 'smaller;
            }
        }
        is_least = true;
    }
    Ok(Shrunk {
        runs: search.runs,
        is_least,
        ..made.shrunk
    })
}

/// A run that failed, and what decided it.
struct Made<E> {
    given: Given,
    calls: u64,
    shrunk: Shrunk<E>,
}

impl<E> Made<E> {
    fn size(&self) -> (u64, usize, u64, usize, [usize; 2]) {
        let Given {
            draws,
            picks,
            losses,
        } = &self.given;
        let count = |is: fn(&&u64) -> bool| draws.iter().filter(is).count();
        let kept = count(|word| **word != u64::MAX);
        let others = count(|word| **word != u64::MAX && **word != 0);
        (
            self.calls,
            losses.len(),
            picks.iter().sum(),
            draws.len(),
            [kept, others],
        )
    }
}

struct Search<B, F, E> {
    builder: B,
    body: F,
    kind: Discriminant<E>,
    words: usize,
    runs: u64,
}

impl<B: Explorable, T, E, F: FnMut(&Run<B::Opened>) -> Result<T, E>> Search<B, F, E> {
    /// Makes the run of a path.
    fn first(&mut self, path: &str) -> Result<Made<E>, Error> {
        let seed = path
            .strip_prefix("seed ")
            .and_then(|seed| seed.parse().ok());
        let given = match seed {
            Some(_) => Given::default(),
            None => Given::of_path(&choices_of(path)?),
        };
        let begin = |words| match seed {
            Some(seed) => Replay::new(of_seed(seed, words), Some(seed)),
            None => Replay::new(given.clone(), None),
        };
        self.made(begin, u64::MAX)?.ok_or_else(|| {
            Error::Argument(format!(
                "the run doesn't fail again: {path}. Its builder and its body must be those that it had"
            ))
        })
    }

    /// Makes a run, again with more words if it takes all of them. `None` if it doesn't fail.
    fn made(
        &mut self,
        begin: impl Fn(usize) -> Replay,
        most: u64,
    ) -> Result<Option<Made<E>>, Error> {
        loop {
            let choices = Choices::again(begin(self.words), most);
            let run = Run::explored(&self.builder, choices, self.words, self.runs + 1)?;
            self.runs += 1;
            let result = catch_unwind(AssertUnwindSafe(|| (self.body)(&run)));
            let end = run.choices(Choices::end);
            if end.is_long {
                return Ok(None);
            }
            let result = result.unwrap_or_else(|panic| resume_unwind(panic));
            if end.is_short {
                self.words *= 2;
                continue;
            }
            let error = result
                .err()
                .filter(|error| discriminant(error) == self.kind);
            return Ok(error.map(|error| Made {
                given: run.choices(|choices| {
                    let replay = choices.replay.as_ref();
                    replay.map(|replay| replay.decided()).unwrap_or_default()
                }),
                calls: run.choices(|choices| choices.calls),
                shrunk: Shrunk {
                    error,
                    path: run.choices(|choices| choices.path_text()),
                    script: run.script(),
                    runs: self.runs,
                    is_least: false,
                },
            }));
        }
    }
}

/// The first words of a seed: xoshiro256++, with a state that SplitMix64 fills from the seed.
fn of_seed(seed: u64, count: usize) -> Given {
    let mut filler = seed;
    let mut state = [0; 4].map(|_: u64| next(&mut filler));
    let mut word = || {
        let [a, b, c, d] = state;
        let found = a.wrapping_add(d).rotate_left(23).wrapping_add(a);
        let (c, d) = (c ^ a, d ^ b);
        state = [a ^ d, b ^ c, c ^ (b << 17), d.rotate_left(45)];
        found
    };
    Given {
        draws: (0..count).map(|_| word()).collect(),
        ..Given::default()
    }
}

/// Choices to try in place of others.
fn smaller(given: &Given) -> impl Iterator<Item = Given> + '_ {
    let losses = (0..given.losses.len()).flat_map(|at| {
        let mut fewer = given.clone();
        let gap = fewer.losses.remove(at);
        let mut sooner = given.clone();
        sooner.losses[at] = gap.saturating_sub(1);
        std::iter::once(fewer).chain((gap > 0).then_some(sooner))
    });
    let picks = smaller_picks(&given.picks).flat_map(move |picks| {
        other_draws(&given.draws).map(move |draws| Given {
            draws,
            picks: picks.clone(),
            losses: given.losses.clone(),
        })
    });
    let with_draws = |draws| Given {
        draws,
        ..given.clone()
    };
    let draws = without_parts(&given.draws).chain(plainer(&given.draws));
    losses.chain(picks).chain(draws.map(with_draws))
}

fn smaller_picks(picks: &[u64]) -> impl Iterator<Item = Vec<u64>> + '_ {
    let less = picks.iter().enumerate().flat_map(move |(at, pick)| {
        let mut values = vec![0, pick / 2, pick.saturating_sub(1)];
        values.dedup();
        let values = values.into_iter().filter(move |value| value < pick);
        values.map(move |value| replaced(picks, at, value))
    });
    without_parts(picks).chain(less)
}

/// A list without each of its halves, quarters, and so on: first without all.
fn without_parts(list: &[u64]) -> impl Iterator<Item = Vec<u64>> + '_ {
    let halves = std::iter::successors(Some(list.len()), |size| (*size > 1).then_some(size / 2));
    halves.filter(|size| *size > 0).flat_map(move |size| {
        (0..list.len()).step_by(size).map(move |start| {
            let end = list.len().min(start + size);
            [&list[..start], &list[end..]].concat()
        })
    })
}

/// Draws of which one takes a plainer word: first those that make it false.
fn plainer(draws: &[u64]) -> impl Iterator<Item = Vec<u64>> + '_ {
    draws.iter().enumerate().flat_map(move |(at, word)| {
        let words: &[u64] = match *word {
            u64::MAX => &[],
            0 => &[u64::MAX],
            _ => &[u64::MAX, 0],
        };
        words.iter().map(move |plain| replaced(draws, at, *plain))
    })
}

/// The same draws and, if there are any, none and some at random: with fewer calls each draw may be another call's.
fn other_draws(draws: &[u64]) -> impl Iterator<Item = Vec<u64>> + '_ {
    let others = (!draws.is_empty()).then(|| {
        let random = (0..RANDOM_DRAWS).map(move |seed| {
            let mut state = seed;
            let word = |_: &u64| {
                if next(&mut state) % 2 == 0 {
                    0
                } else {
                    u64::MAX
                }
            };
            draws.iter().map(word).collect()
        });
        std::iter::once(Vec::new()).chain(random)
    });
    std::iter::once(draws.to_vec()).chain(others.into_iter().flatten())
}

fn replaced(list: &[u64], at: usize, value: u64) -> Vec<u64> {
    let mut list = list.to_vec();
    list[at] = value;
    list
}

#[cfg(test)]
mod tests {
    use super::of_seed;

    /// The first words of the generator's reference code, with the state that SplitMix64 fills from 0.
    #[test]
    fn words_of_a_seed() {
        let words = of_seed(0, 2).draws;
        assert_eq!(words, [0x5317_5d61_490b_23df, 0x61da_6f3d_c380_d507]);
    }
}
