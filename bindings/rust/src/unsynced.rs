//! Unsynced writes that no crash could keep, since they were made at a retention of 0.
use crate::{Config, PartialWriteMode, Probability, WriteConfig};
use std::collections::BTreeMap;

/// What the files of a search begin with, as a mount does: a crash keeps half of the unsynced sectors.
pub(crate) const TORN_WRITES: WriteConfig = WriteConfig {
    failure_rate: Probability::ZERO,
    retention_rate: Probability::new(1, 2).unwrap(),
    mode: PartialWriteMode::Sectors(512),
};

/// What crashes met: unsynced writes that they could not keep, and some that they could.
#[derive(Clone, Copy, Debug, Default, PartialEq, Eq)]
pub(crate) struct Met {
    never_kept: bool,
    may_keep: bool,
}

impl Met {
    pub(crate) fn add(&mut self, other: Met) {
        self.never_kept |= other.never_kept;
        self.may_keep |= other.may_keep;
    }

    /// Returns what a report says of it; nothing if each unsynced write could be kept.
    pub(crate) fn note(self) -> &'static str {
        match (self.never_kept, self.may_keep) {
            (false, _) => "",
            (true, false) => "no unsynced write could be kept: set `write 0 1 1 2 sectors 512`",
            (true, true) => {
                "some unsynced writes could not be kept: set `write 0 1 1 2 sectors 512`"
            }
        }
    }
}

/// The files or blobs that have unsynced writes, by a key of each.
#[derive(Debug, Default)]
pub(crate) struct Unsynced {
    may_keep: bool,
    /// The one that was written last. It isn't in `writes`, so that most writes look nothing up.
    last: Option<(u64, Met)>,
    writes: BTreeMap<u64, Met>,
    /// What the crashes met so far.
    pub(crate) met: Met,
}

impl Unsynced {
    /// Takes the settings of the next calls.
    pub(crate) fn set(&mut self, config: &Config) {
        let writes = config.write_rate;
        self.may_keep = writes.is_some_and(|writes| !writes.retention_rate.is_zero());
    }

    pub(crate) fn write(&mut self, key: u64) {
        let met = Met {
            never_kept: !self.may_keep,
            may_keep: self.may_keep,
        };
        match &mut self.last {
            Some((last, all)) if *last == key => all.add(met),
            _ => {
                let mut all = self.writes.remove(&key).unwrap_or_default();
                all.add(met);
                self.writes.extend(self.last.replace((key, all)));
            }
        }
    }

    /// Takes a sync, also one that has only started, or what else leaves no unsynced write.
    pub(crate) fn sync(&mut self, key: u64) {
        self.last.take_if(|(last, _)| *last == key);
        self.writes.remove(&key);
    }

    /// Takes a sync of everything, or a reopening without a crash, which drops what is pending.
    pub(crate) fn clear(&mut self) {
        self.last = None;
        self.writes.clear();
    }

    pub(crate) fn crash(&mut self) {
        for met in self
            .last
            .iter()
            .map(|last| &last.1)
            .chain(self.writes.values())
        {
            self.met.add(*met);
        }
        self.clear();
    }
}
