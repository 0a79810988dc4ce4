//! A run that is made again, by choices that are given.
use crate::foreign::Choice;
use crate::limits::next;
use crate::path_text::{text_of, words_text};
use crate::paths::{Kind, Words, words_of};

/// What decides a run: the words of its draws, what `choose` returns, and before each power loss how many calls have power. Further draws
/// take the greatest word: nothing fails any more, and a crash loses what it may. Further choices are 0.
#[derive(Clone, Debug, Default, PartialEq, Eq)]
pub(crate) struct Given {
    pub(crate) draws: Vec<u64>,
    pub(crate) picks: Vec<u64>,
    pub(crate) losses: Vec<u64>,
}

impl Given {
    /// What decided a run with these choices, of which the draws took these words.
    pub(crate) fn of(choices: &[Choice], draws: Vec<u64>) -> Given {
        let of = |kind: Kind| {
            choices
                .iter()
                .filter(move |choice| choice.kind == kind as u32)
        };
        let (mut losses, mut gap) = (Vec::new(), 0);
        for choice in of(Kind::Power) {
            if choice.branch == 0 {
                gap += 1;
            } else {
                losses.push(std::mem::take(&mut gap));
            }
        }
        Given {
            draws,
            picks: of(Kind::Branch).map(|choice| choice.branch).collect(),
            losses,
        }
    }

    /// What decided the run of a path.
    pub(crate) fn of_path(choices: &[Choice]) -> Given {
        Given::of(choices, words_of(choices))
    }
}

/// The choices of such a run, and those that it has made.
#[derive(Debug)]
pub(crate) struct Replay {
    given: Given,
    /// How many of the given choices were made.
    picked: usize,
    lost: usize,
    /// How many more calls have power.
    gap: u64,
    /// The state of the generator from which the run of a seed chooses.
    chooser: Option<u64>,
    words: Vec<u64>,
    drawn: usize,
    taken: Vec<Choice>,
    /// Whether each draw took 0 or the greatest word, so that the choices have a text.
    is_plain: bool,
}

impl Replay {
    pub(crate) fn new(given: Given, chooser: Option<u64>) -> Replay {
        let gap = given.losses.first().copied().unwrap_or(0);
        Replay {
            given,
            picked: 0,
            lost: 0,
            gap,
            chooser,
            words: Vec::new(),
            drawn: 0,
            taken: Vec::new(),
            is_plain: true,
        }
    }

    /// How often the power fails.
    pub(crate) fn losses(&self) -> u64 {
        self.given.losses.len() as u64
    }

    /// Begins the run. Returns its words, and `more` that make draws false.
    pub(crate) fn begin(&mut self, more: usize) -> Words {
        self.words = self.given.draws.clone();
        self.words.resize(self.words.len() + more + 1, u64::MAX);
        Words::new(self.words.clone())
    }

    /// Takes the next branch of a choice.
    pub(crate) fn take(&mut self, kind: Kind, of: usize) -> usize {
        let branch = match kind {
            Kind::Power => self.power_fails(),
            _ => self.pick(of as u64),
        };
        self.push(kind, branch, of as u64);
        branch as usize
    }

    /// Makes the draws up to here, where `left` words are left. With `sizes` the last one drew one of that many.
    pub(crate) fn count(&mut self, left: usize, sizes: u64) {
        let end = self.words.len().saturating_sub(left);
        for at in self.drawn..end {
            let word = self.words[at];
            if sizes > 0 && at + 1 == end {
                let index = (u128::from(word) * u128::from(sizes)) >> 64;
                self.push(Kind::Size, index as u64, sizes);
            } else {
                self.is_plain &= word == 0 || word == u64::MAX;
                self.push(Kind::Draw, u64::from(word != 0), 2);
            }
        }
        self.drawn = self.drawn.max(end);
    }

    /// The words that the run has taken.
    pub(crate) fn words(&self) -> &[u64] {
        &self.words[..self.drawn]
    }

    /// What decided the run.
    pub(crate) fn decided(&self) -> Given {
        Given::of(&self.taken, self.words().to_vec())
    }

    /// The path of the run; if a draw took another word than 0 or the greatest, its words.
    pub(crate) fn path(&self) -> String {
        if self.is_plain {
            return text_of(&self.taken);
        }
        format!("words {}", words_text(self.words()))
    }

    fn pick(&mut self, of: u64) -> u64 {
        if let Some(state) = &mut self.chooser {
            return next(state) % of;
        }
        self.picked += 1;
        let pick = self.given.picks.get(self.picked - 1).copied();
        pick.unwrap_or(0).min(of - 1)
    }

    fn power_fails(&mut self) -> u64 {
        if self.gap > 0 {
            self.gap -= 1;
            return 0;
        }
        self.lost += 1;
        self.gap = self.given.losses.get(self.lost).copied().unwrap_or(0);
        1
    }

    fn push(&mut self, kind: Kind, branch: u64, among: u64) {
        self.taken.push(Choice {
            kind: kind as u32,
            branch,
            among,
        });
    }
}
