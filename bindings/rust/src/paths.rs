//! The path of explored runs. The library knows which branch is next; no other file calls these functions of it.
use crate::foreign::{
    Choice, Explorer, blobcrash_explorer_begin, blobcrash_explorer_choose,
    blobcrash_explorer_count, blobcrash_explorer_count_size, blobcrash_explorer_end,
    blobcrash_explorer_next,
};
use std::sync::Arc;

/// What a choice decides.
#[derive(Clone, Copy, Debug, PartialEq, Eq)]
#[repr(u32)]
pub(crate) enum Kind {
    /// Whether a draw of the store is true. The first branch is true.
    Draw = 0,
    /// Whether the power fails at a call. In the first branch it stays on.
    Power = 1,
    /// A `Run::choose`.
    Branch = 2,
    /// The size at which a partial resize stops.
    Size = 3,
}

/// The words that a run is given. They are public since `Explorable` has them, in a private module.
#[derive(Clone, Debug, Default)]
pub struct Words {
    all: Arc<[u64]>,
    /// Where they begin.
    start: usize,
}

impl Words {
    pub(crate) fn new(words: Vec<u64>) -> Words {
        let (all, start) = (words.into(), 0);
        Words { all, start }
    }

    pub(crate) fn as_slice(&self) -> &[u64] {
        &self.all[self.start..]
    }
}

/// A traversal of the tree of choices, with the list to which the library writes them.
#[derive(Debug, Default)]
pub(crate) struct Path {
    explorer: Explorer,
    choices: Vec<Choice>,
    /// The words of a run, at the end of a list in which those of the next one are written over them.
    words: Arc<[u64]>,
    /// How many of them follow those of the path.
    more: usize,
}

impl Path {
    /// A traversal of the leaves below a path.
    pub(crate) fn below(choices: Vec<Choice>) -> Path {
        let len = choices.len();
        let explorer = Explorer {
            root: len,
            len,
            ..Explorer::default()
        };
        Path {
            explorer,
            choices,
            ..Path::default()
        }
    }

    /// Begins the run of the path. Returns the words of its draws, and then `more` zeros and a last word that isn't zero.
    pub(crate) fn begin_with(&mut self, more: usize) -> Words {
        let planned = &self.choices[..self.explorer.len];
        if self.words.len() <= more + planned.len() || self.more != more + 1 {
            let mut words = vec![0; 2 * planned.len() + 64 + more];
            words.push(u64::MAX);
            (self.words, self.more) = (words.into(), more + 1);
        }
        let words = Arc::make_mut(&mut self.words);
        let mut start = words.len() - self.more;
        for word in planned.iter().rev().filter_map(word_of) {
            start -= 1;
            words[start] = word;
        }
        self.begin(self.words.len() - start);
        let all = Arc::clone(&self.words);
        Words { all, start }
    }

    /// Begins the run of the path, with this many words.
    fn begin(&mut self, given: usize) {
        // SAFETY: the explorer is borrowed for the call.
        unsafe { blobcrash_explorer_begin(&mut self.explorer, given) }
    }

    /// Makes the next choice of the run, and returns its branch.
    pub(crate) fn choose(&mut self, kind: Kind, among: usize) -> usize {
        self.reserve(1);
        let (explorer, capacity) = (&mut self.explorer, self.choices.len());
        let (at, kind, among) = (self.choices.as_mut_ptr(), kind as u32, among as u64);
        // SAFETY: the explorer and the list are borrowed for the call, and don't overlap.
        let chosen = unsafe { blobcrash_explorer_choose(explorer, at, capacity, kind, among) };
        chosen.branch as usize
    }

    /// Makes the draws up to here choices of the run, where `left` words are left. If `sizes` isn't 0, the last one drew one of that many.
    pub(crate) fn count(&mut self, left: usize, sizes: u64) {
        self.reserve(self.explorer.given.saturating_sub(left));
        let (explorer, capacity) = (&mut self.explorer, self.choices.len());
        let at = self.choices.as_mut_ptr();
        // SAFETY: as for `choose`.
        unsafe {
            match sizes {
                0 => blobcrash_explorer_count(explorer, at, capacity, left),
                _ => blobcrash_explorer_count_size(explorer, at, capacity, left, sizes),
            }
        };
    }

    /// Ends the run. Returns whether it made the choices of the path, and no fewer.
    pub(crate) fn end(&mut self) -> bool {
        // SAFETY: the explorer is borrowed for the call.
        unsafe { blobcrash_explorer_end(&mut self.explorer) }
    }

    /// Makes the path that of the next leaf. Returns `false` for the last leaf.
    pub(crate) fn advance(&mut self) -> bool {
        let (at, capacity) = (self.choices.as_mut_ptr(), self.choices.len());
        // SAFETY: as for `choose`.
        unsafe { blobcrash_explorer_next(&mut self.explorer, at, capacity) }
    }

    /// Returns how many choices the run has made.
    pub(crate) fn made(&self) -> usize {
        self.explorer.taken
    }

    /// Returns how many choices the path has.
    pub(crate) fn planned(&self) -> usize {
        self.explorer.len
    }

    /// Returns the choices that the run has made.
    pub(crate) fn taken(&self) -> &[Choice] {
        &self.choices[..self.explorer.taken]
    }

    /// Returns the words of the draws that the run has made.
    pub(crate) fn drawn(&self) -> Vec<u64> {
        words_of(self.taken())
    }

    /// Reserves capacity for more choices.
    fn reserve(&mut self, more: usize) {
        let wanted = self.explorer.taken + more;
        if self.choices.len() < wanted {
            self.choices.resize(2 * wanted, Choice::default());
        }
    }
}

/// Returns the words that make draws have their outcomes.
pub(crate) fn words_of(choices: &[Choice]) -> Vec<u64> {
    choices.iter().filter_map(word_of).collect()
}

/// Returns the word that makes a draw have its outcome: of a size at index `k` of `n` it is `k * 2^64 / n`, rounded up. `None` for a choice
/// that is no draw.
fn word_of(choice: &Choice) -> Option<u64> {
    match choice.kind {
        kind if kind == Kind::Draw as u32 => Some(if choice.branch == 0 { 0 } else { u64::MAX }),
        kind if kind == Kind::Size as u32 => {
            let scaled = u128::from(choice.branch) << 64;
            Some(scaled.div_ceil(u128::from(choice.among)) as u64)
        }
        _ => None,
    }
}

#[cfg(test)]
mod tests {
    use super::{Kind, Path};
    use crate::foreign::tests::header;

    #[test]
    fn draws_have_the_numbers_of_the_header() {
        assert_eq!(header().get("DRAW"), Some(&(Kind::Draw as u32)));
        assert_eq!(header().get("DRAWN_SIZE"), Some(&(Kind::Size as u32)));
    }

    /// The branches of a run that makes three choices, if the first one is no draw.
    fn run(path: &mut Path) -> [usize; 3] {
        path.begin(0);
        let first = path.choose(Kind::Branch, 3);
        [
            first,
            path.choose(Kind::Power, 2),
            path.choose(Kind::Branch, 1 + first),
        ]
    }

    /// Each leaf of a tree is visited once, in order.
    #[test]
    fn all_leaves() {
        let (mut path, mut seen) = (Path::default(), Vec::new());
        loop {
            seen.push(run(&mut path));
            assert!(path.end());
            if !path.advance() {
                break;
            }
        }
        let wanted = (0..3).flat_map(|a| (0..2).flat_map(move |b| (0..=a).map(move |c| [a, b, c])));
        assert_eq!(seen, wanted.collect::<Vec<_>>());
    }

    /// A run that makes other choices, or fewer, doesn't end on its path.
    #[test]
    fn other_choices() {
        let mut path = Path::default();
        run(&mut path);
        assert!(path.end() && path.advance());
        path.begin(0);
        path.choose(Kind::Branch, 3);
        assert!(!path.end());
        path.choose(Kind::Power, 3);
        path.choose(Kind::Power, 2);
        assert!(!path.end());
    }
}
