use crate::Error;

/// A probability as a fraction of whole numbers, from 0 to 1.
///
/// ```
/// use blobcrash::Probability;
///
/// let one_in_eight = Probability::new(1, 8).unwrap();
/// assert!(one_in_eight != Probability::ZERO && one_in_eight != Probability::ONE);
/// ```
#[derive(Clone, Copy, Debug, PartialEq, Eq)]
pub struct Probability {
    numerator: u64,
    denominator: u64,
}

impl Probability {
    /// Never.
    ///
    /// ```
    /// # use blobcrash::Probability;
    /// assert_eq!(Probability::new(0, 1), Some(Probability::ZERO));
    /// ```
    pub const ZERO: Probability = Probability {
        numerator: 0,
        denominator: 1,
    };
    /// Always.
    ///
    /// ```
    /// # use blobcrash::Probability;
    /// assert_eq!(Probability::new(1, 1), Some(Probability::ONE));
    /// ```
    pub const ONE: Probability = Probability {
        numerator: 1,
        denominator: 1,
    };

    /// Returns the fraction, or `None` if the denominator is 0 or the numerator is greater than it.
    ///
    /// ```
    /// use blobcrash::Probability;
    ///
    /// assert!(Probability::new(1, 8).is_some());
    /// assert_eq!(Probability::new(3, 2), None);
    /// ```
    #[must_use]
    pub const fn new(numerator: u64, denominator: u64) -> Option<Probability> {
        if denominator == 0 || numerator > denominator {
            return None;
        }
        Some(Probability {
            numerator,
            denominator,
        })
    }

    pub(crate) fn words(self) -> String {
        format!("{} {}", self.numerator, self.denominator)
    }

    pub(crate) fn is_zero(self) -> bool {
        self.numerator == 0
    }

    /// Whether a draw of this rate takes a word of the generator.
    pub(crate) fn needs_draws(self) -> bool {
        self.numerator != 0 && self.numerator != self.denominator
    }
}

/// Which submitted bytes of a write survive together.
///
/// ```
/// use blobcrash::PartialWriteMode;
///
/// let device = PartialWriteMode::Sectors(512);
/// assert_ne!(device, PartialWriteMode::Subset);
/// ```
#[derive(Clone, Copy, Debug, PartialEq, Eq)]
pub enum PartialWriteMode {
    /// A prefix: the bytes before the first one that is lost.
    Prefix,
    /// Each byte by itself.
    Subset,
    /// Sectors of this size in bytes, 1 at least, counted from the blob's first byte.
    Sectors(u64),
}

/// Which writes fail, and which of their bytes survive: of a failed write, and of one that wasn't synced at a crash.
///
/// ```
/// use blobcrash::{PartialWriteMode, Probability, WriteConfig};
///
/// let torn_but_never_failing = WriteConfig {
///     failure_rate: Probability::ZERO,
///     retention_rate: Probability::new(1, 2).unwrap(),
///     mode: PartialWriteMode::Prefix,
/// };
/// # let _ = torn_but_never_failing;
/// ```
#[derive(Clone, Copy, Debug, PartialEq, Eq)]
pub struct WriteConfig {
    /// How often a write fails.
    pub failure_rate: Probability,
    /// How often a byte, or a sector, of a failed write or of an unsynced one is kept; zero keeps none.
    pub retention_rate: Probability,
    /// Which of its bytes survive together.
    pub mode: PartialWriteMode,
}

/// Which resizes fail, and which failed ones leave a size between the two.
///
/// ```
/// use blobcrash::{Probability, ResizeConfig};
///
/// let fails_as_a_whole = ResizeConfig {
///     failure_rate: Probability::new(1, 8).unwrap(),
///     partial_rate: Probability::ZERO,
/// };
/// # let _ = fails_as_a_whole;
/// ```
#[derive(Clone, Copy, Debug, PartialEq, Eq)]
pub struct ResizeConfig {
    /// How often a resize, or a truncation of a file, fails. A second draw with the same rate decides whether a resize that wasn't synced
    /// survives a crash; a truncation of a file has none.
    pub failure_rate: Probability,
    /// How often a failed resize leaves a size between. That of a file does so only if it shortens the file.
    pub partial_rate: Probability,
}

/// Which calls fail, and how often. What isn't set doesn't fail, and keeps nothing.
///
/// ```
/// use blobcrash::{Config, PartialWriteMode, Probability, ResizeConfig, WriteConfig};
///
/// let rarely = Probability::new(1, 8).unwrap();
/// let writes = WriteConfig {
///     failure_rate: rarely,
///     retention_rate: Probability::new(1, 2).unwrap(),
///     mode: PartialWriteMode::Sectors(512),
/// };
/// let resizes = ResizeConfig { failure_rate: rarely, partial_rate: Probability::ZERO };
/// let faults = Config::default().open(rarely).read(rarely).write(writes).sync(rarely);
/// let faults = faults.resize(resizes).remove(rarely).scan(rarely);
/// assert_eq!([faults.open_rate, faults.read_rate, faults.sync_rate], [Some(rarely); 3]);
/// assert_eq!([faults.remove_rate, faults.scan_rate], [Some(rarely); 2]);
/// assert_eq!((faults.write_rate, faults.resize_rate), (Some(writes), Some(resizes)));
/// ```
#[derive(Clone, Copy, Debug, Default, PartialEq, Eq)]
#[must_use]
pub struct Config {
    /// How often an open fails.
    pub open_rate: Option<Probability>,
    /// How often a read fails.
    pub read_rate: Option<Probability>,
    /// How writes fail, and what a crash keeps of unsynced ones: nothing, if this isn't set.
    pub write_rate: Option<WriteConfig>,
    /// How often a sync fails, also a started one and that of a SYNC write.
    pub sync_rate: Option<Probability>,
    /// How resizes fail, and how often an unsynced one survives a crash: never, if this isn't set. Of files how often truncations fail.
    pub resize_rate: Option<ResizeConfig>,
    /// How often a removal fails.
    pub remove_rate: Option<Probability>,
    /// How often a scan fails.
    pub scan_rate: Option<Probability>,
}

impl Config {
    /// Sets how often opens fail.
    pub const fn open(mut self, rate: Probability) -> Config {
        self.open_rate = Some(rate);
        self
    }

    /// Sets how often reads fail.
    pub const fn read(mut self, rate: Probability) -> Config {
        self.read_rate = Some(rate);
        self
    }

    /// Sets how writes fail, and what a crash keeps of them.
    pub const fn write(mut self, writes: WriteConfig) -> Config {
        self.write_rate = Some(writes);
        self
    }

    /// Sets how often syncs fail.
    pub const fn sync(mut self, rate: Probability) -> Config {
        self.sync_rate = Some(rate);
        self
    }

    /// Sets how resizes fail.
    pub const fn resize(mut self, resizes: ResizeConfig) -> Config {
        self.resize_rate = Some(resizes);
        self
    }

    /// Sets how often removals fail.
    pub const fn remove(mut self, rate: Probability) -> Config {
        self.remove_rate = Some(rate);
        self
    }

    /// Sets how often scans fail.
    pub const fn scan(mut self, rate: Probability) -> Config {
        self.scan_rate = Some(rate);
        self
    }

    /// Checks what no line can say.
    pub(crate) fn check(&self) -> Result<(), Error> {
        match self.write_rate {
            Some(WriteConfig {
                mode: PartialWriteMode::Sectors(0),
                ..
            }) => Err(Error::argument("a sector has at least one byte")),
            _ => Ok(()),
        }
    }

    /// Whether a rate takes words of the generator.
    pub(crate) fn needs_draws(&self) -> bool {
        let writes = self
            .write_rate
            .map(|w| [Some(w.failure_rate), Some(w.retention_rate)]);
        let resizes = self
            .resize_rate
            .map(|r| [Some(r.failure_rate), Some(r.partial_rate)]);
        let pairs = writes.into_iter().chain(resizes).flatten();
        let draws = |rate: Option<Probability>| rate.is_some_and(Probability::needs_draws);
        // The size of a partial resize is drawn whatever its rates are.
        let is_partial = |r: ResizeConfig| !r.failure_rate.is_zero() && !r.partial_rate.is_zero();
        let alone = self.rates().map(|(_, rate)| rate);
        alone.into_iter().chain(pairs).any(draws) || self.resize_rate.is_some_and(is_partial)
    }

    /// The rates of the calls that have no other setting, by the words of their lines.
    fn rates(&self) -> [(&'static str, Option<Probability>); 5] {
        [
            ("open", self.open_rate),
            ("read", self.read_rate),
            ("sync", self.sync_rate),
            ("remove", self.remove_rate),
            ("scan", self.scan_rate),
        ]
    }

    /// Applies the tokens of a setting's line, after `config`, which is known to be one.
    pub(crate) fn apply(&mut self, setting: &[&str]) {
        let numbers: Vec<u64> = setting
            .iter()
            .filter_map(|token| token.parse().ok())
            .collect();
        let rate = |at: usize| Probability::new(*numbers.get(at)?, *numbers.get(at + 1)?);
        match setting.first() {
            Some(&"open") => self.open_rate = rate(0),
            Some(&"read") => self.read_rate = rate(0),
            Some(&"sync") => self.sync_rate = rate(0),
            Some(&"remove") => self.remove_rate = rate(0),
            Some(&"scan") => self.scan_rate = rate(0),
            Some(&"resize") => {
                let rates = rate(0).zip(rate(2));
                self.resize_rate = rates.map(|(failure_rate, partial_rate)| ResizeConfig {
                    failure_rate,
                    partial_rate,
                });
            }
            Some(&"write") => {
                let mode = match setting.get(5) {
                    Some(&"prefix") => PartialWriteMode::Prefix,
                    Some(&"subset") => PartialWriteMode::Subset,
                    _ => PartialWriteMode::Sectors(numbers.get(4).copied().unwrap_or(1)),
                };
                let rates = rate(0).zip(rate(2));
                self.write_rate = rates.map(|(failure_rate, retention_rate)| WriteConfig {
                    failure_rate,
                    retention_rate,
                    mode,
                });
            }
            _ => *self = Config::default(),
        }
    }

    /// The lines that make this configuration of one that sets nothing.
    pub(crate) fn lines(&self) -> Vec<String> {
        let mut lines = Vec::new();
        for (word, rate) in self.rates() {
            lines.extend(rate.map(|rate| format!("config {word} {}", rate.words())));
        }
        lines.extend(self.write_rate.map(|writes| {
            let (failure, retention) = (writes.failure_rate.words(), writes.retention_rate.words());
            let mode = match writes.mode {
                PartialWriteMode::Prefix => "prefix".to_owned(),
                PartialWriteMode::Subset => "subset".to_owned(),
                PartialWriteMode::Sectors(size) => format!("sectors {size}"),
            };
            format!("config write {failure} {retention} {mode}")
        }));
        lines.extend(self.resize_rate.map(|resizes| {
            let (failure, partial) = (resizes.failure_rate.words(), resizes.partial_rate.words());
            format!("config resize {failure} {partial}")
        }));
        lines
    }
}
