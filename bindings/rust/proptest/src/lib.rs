//! A strategy of proptest: the words of a run's draws, which decide what fails and what a crash keeps.
//!
//! ```
//! use blobcrash::{Config, Error, PartialWriteMode, Probability, Store, WriteConfig, WriteOptions};
//! use proptest::test_runner::{TestCaseError, TestRunner};
//!
//! let torn = Config::default().write(WriteConfig {
//!     failure_rate: Probability::ZERO,
//!     retention_rate: Probability::new(1, 2).unwrap(),
//!     mode: PartialWriteMode::Subset,
//! });
//! let synced = |words: blobcrash_proptest::Words| {
//!     let store = Store::builder().config(torn).words(&words.to_vec()).open().unwrap();
//!     let (blob, _) = store.open("p", b"b").unwrap();
//!     blob.write_at(0, b"record", WriteOptions::default()).unwrap();
//!     blob.sync().unwrap();
//!     store.restart().unwrap();
//!     let (_, size) = store.open("p", b"b").unwrap();
//!     if size == 6 { Ok(()) } else { Err(TestCaseError::fail("the record is lost")) }
//! };
//! TestRunner::default().run(&blobcrash_proptest::words(0..20), synced).unwrap();
//! ```
#![warn(missing_docs)]

use proptest::collection::{SizeRange, vec};
use proptest::prelude::{Just, any};
use proptest::prop_oneof;
use proptest::strategy::Strategy;

/// How many words follow that make draws false.
const FURTHER: usize = 4096;

/// The words of a run's draws.
#[derive(Clone, Debug, PartialEq, Eq)]
pub struct Words(pub Vec<u64>);

impl Words {
    /// Returns the words, and further ones that make draws false: nothing fails any more, and a crash loses what it may. For `words` of
    /// a builder.
    #[must_use]
    pub fn to_vec(&self) -> Vec<u64> {
        let mut words = self.0.clone();
        words.resize(words.len() + FURTHER, u64::MAX);
        words
    }
}

/// Words, as many as `count` says. Each makes a draw false, true, or is any word. They shrink to fewer words, and to false draws.
pub fn words(count: impl Into<SizeRange>) -> impl Strategy<Value = Words> {
    vec(prop_oneof![Just(u64::MAX), Just(0), any::<u64>()], count).prop_map(Words)
}
