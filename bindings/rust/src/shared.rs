//! What a store shares with its clones, its blobs and its started syncs, and files with their clones and open files: a session, which a
//! lock protects.
use crate::foreign::{Kind, TypedReply};
use crate::library::{Session, changes, kind_of};
use crate::limits::{Limits, Recorded};
use crate::script::{tokens, unhex};
use crate::storage::BlobVersion;
use crate::{Config, Error};
use std::collections::VecDeque;
use std::sync::atomic::{AtomicBool, Ordering};
use std::sync::{Arc, Mutex, MutexGuard, OnceLock, PoisonError};

/// The state of a store or of files.
#[derive(Debug)]
pub(crate) struct Shared<S> {
    state: Mutex<S>,
    /// Whether there is a seed or a word.
    pub(crate) has_draws: bool,
}

/// The state of a store.
#[derive(Debug)]
pub(crate) struct State {
    pub(crate) session: Session,
    /// The handles that are open, by their numbers. Each is greater than those before it.
    opened: VecDeque<(usize, Arc<Opened>)>,
    /// How often the store was reopened.
    pub(crate) reopens: u64,
    config: Config,
    /// Whether the session's settings aren't `config`: setting them was cut short.
    is_unset: bool,
    pub(crate) limits: Limits,
    /// Whether nothing is to be done before a call.
    permits_all: bool,
    pub(crate) allow_stale: bool,
    pub(crate) is_pushed: bool,
}

/// A resize that an explored run makes.
#[derive(Clone, Copy)]
struct Resize {
    handle: usize,
    /// The size before, in bytes.
    from: u64,
    to: u64,
}

/// What the store knows of an open handle. The fields change under the store's lock.
#[derive(Debug)]
pub(crate) struct Opened {
    /// The partition and the name, one after the other.
    names: Vec<u8>,
    partition_len: usize,
    /// Why the handle is stale.
    stale: OnceLock<&'static str>,
    /// A number that the handles of a blob share.
    pub(crate) key: u64,
    allow_stale: AtomicBool,
    is_closed: AtomicBool,
}

impl Opened {
    pub(crate) fn new(partition: &str, name: &[u8], allow_stale: bool) -> Opened {
        let mut names = Vec::with_capacity(partition.len() + name.len());
        names.extend_from_slice(partition.as_bytes());
        names.extend_from_slice(name);
        Opened {
            names,
            partition_len: partition.len(),
            key: hash(partition.as_bytes(), name),
            stale: OnceLock::new(),
            allow_stale: AtomicBool::new(allow_stale),
            is_closed: AtomicBool::new(false),
        }
    }

    pub(crate) fn is_stale(&self) -> bool {
        self.stale.get().is_some()
    }

    pub(crate) fn allow_stale(&self, allow: bool) {
        self.allow_stale.store(allow, Ordering::Relaxed);
    }

    /// Returns `StaleHandle` if the handle may not be used.
    #[inline]
    pub(crate) fn check(&self) -> Result<(), Error> {
        match self.stale.get() {
            Some(why) if !self.allow_stale.load(Ordering::Relaxed) => Err(Error::StaleHandle(why)),
            _ => Ok(()),
        }
    }

    /// Whether this is a handle of a blob, or without a name of any blob of the partition.
    fn is_of(&self, partition: &str, name: Option<&[u8]>) -> bool {
        let (own_partition, own_name) = self.names.split_at(self.partition_len);
        own_partition == partition.as_bytes() && name.is_none_or(|name| own_name == name)
    }

    fn end(&self, why: &'static str) {
        // The first reason stays.
        let _ = self.stale.set(why);
    }
}

/// Returns a hash of a blob's names, FNV-1a. It is made at each open, and is faster than that of the standard library for short names.
fn hash(partition: &[u8], name: &[u8]) -> u64 {
    let bytes = partition.iter().chain(b"/").chain(name);
    bytes.fold(0xcbf2_9ce4_8422_2325, |hash, byte| {
        (hash ^ u64::from(*byte)).wrapping_mul(0x100_0000_01b3)
    })
}

impl<S> Shared<S> {
    pub(crate) fn new(state: S, has_draws: bool) -> Arc<Shared<S>> {
        let state = Mutex::new(state);
        Arc::new(Shared { state, has_draws })
    }

    /// Takes the lock. A panic of another thread leaves a state that can be used: a session has made a call or not.
    #[inline]
    pub(crate) fn lock(&self) -> MutexGuard<'_, S> {
        self.state.lock().unwrap_or_else(PoisonError::into_inner)
    }
}

impl State {
    pub(crate) fn new(session: Session, config: Config, limits: Limits) -> State {
        State {
            session,
            opened: VecDeque::with_capacity(4),
            reopens: 0,
            config,
            is_unset: false,
            permits_all: limits.choices.is_none(),
            limits,
            allow_stale: false,
            is_pushed: false,
        }
    }

    /// Returns another state, over a fork of the session. It has no handles, and isn't that of a search's run.
    pub(crate) fn fork(&mut self) -> Result<State, Error> {
        let mut fork = State::new(self.session.fork()?, self.config, Limits::default());
        (fork.allow_stale, fork.is_pushed) = (self.allow_stale, self.is_pushed);
        fork.is_unset = self.is_unset;
        fork.follow_settings();
        Ok(fork)
    }

    fn follow_settings(&mut self) {
        self.permits_all = !self.is_unset && self.limits.choices.is_none();
    }

    /// Makes the call of a line, and returns its reply line, of a refused call too.
    pub(crate) fn call(&mut self, line: &str) -> Result<&str, Error> {
        if !self.permits_all {
            self.permit_limited(kind_of(line))?;
        }
        let resize = self.resize_of(line);
        let len = self.session.call(line)?.len();
        self.count_size(resize);
        Ok(self.session.text(len))
    }

    /// Makes a typed call through a handle or a started sync.
    #[inline(always)]
    pub(crate) fn by_number(
        &mut self,
        kind: Kind,
        number: usize,
        len: u64,
    ) -> Result<TypedReply, Error> {
        self.permit(kind)?;
        if kind != Kind::Resize || self.limits.choices.is_none() {
            return self.session.by_number(kind, number, len);
        }
        let resize = self.resize(number, len);
        let resized = self.session.by_number(kind, number, len);
        self.count_size(resize);
        resized
    }

    /// Returns what must be known of a resize of an explored run before it is made. `None` for any other line.
    fn resize_of(&mut self, line: &str) -> Option<Resize> {
        self.limits.choices.as_ref()?;
        let mut words = line.split(' ').filter(|word| !word.is_empty());
        if words.next() != Some("resize") {
            return None;
        }
        let handle = words.next()?.parse().ok()?;
        self.resize(handle, words.next()?.parse().ok()?)
    }

    fn resize(&mut self, handle: usize, to: u64) -> Option<Resize> {
        let from = self.session.tracked_size(handle)?;
        Some(Resize { handle, from, to })
    }

    /// Counts the draws of a resize that stopped at a size between the old one and the new one: the last one drew it.
    fn count_size(&mut self, resize: Option<Resize>) {
        let Some(Resize { handle, from, to }) = resize else {
            return;
        };
        if let Some(now) = self.session.tracked_size(handle) {
            if now != from && now != to {
                self.limits
                    .count_draws(from.abs_diff(to) - 1, &mut self.session);
            }
        }
    }

    /// Makes a typed call of a partition and a name, with the versions that an open accepts.
    pub(crate) fn by_name(
        &mut self,
        kind: Kind,
        partition: &str,
        name: &[u8],
        versions: [u16; 2],
    ) -> Result<TypedReply, Error> {
        self.permit(kind)?;
        self.session.by_name(kind, partition, name, versions)
    }

    /// Does what precedes a call: sets the settings if they aren't complete, which may return `OutOfMemory`, and follows the path of an
    /// explored run.
    #[inline(always)]
    pub(crate) fn permit(&mut self, kind: Kind) -> Result<(), Error> {
        if self.permits_all {
            return Ok(());
        }
        self.permit_limited(kind as u32)
    }

    #[cold]
    fn permit_limited(&mut self, kind: u32) -> Result<(), Error> {
        self.limits.count_call()?;
        if self.is_unset && kind != Kind::Configure as u32 {
            self.set(self.config)?;
        }
        self.limits.permit(&mut self.session, || changes(kind));
        Ok(())
    }

    /// Replaces the settings, or leaves the earlier ones. If these can't be set again, the next call that the store makes sets them
    /// first, or returns `OutOfMemory`.
    pub(crate) fn configure(&mut self, config: Config) -> Result<(), Error> {
        let earlier = self.config;
        let outcome = self.set(config);
        if outcome.is_err() {
            self.config = earlier;
            let _ = self.set(earlier);
        }
        outcome
    }

    fn set(&mut self, config: Config) -> Result<(), Error> {
        self.is_unset = true;
        self.follow_settings();
        self.call("config clear")?;
        for line in config.lines() {
            self.call(&line)?;
        }
        self.config = config;
        self.limits.unsynced.set(&config);
        self.is_unset = false;
        self.follow_settings();
        Ok(())
    }

    pub(crate) fn config(&self) -> Config {
        self.config
    }

    /// Removes a blob, if there is one, and makes it again with this version and these bytes, which are durable. The power is on meanwhile.
    pub(crate) fn replace_blob(
        &mut self,
        partition: &str,
        name: &[u8],
        version: BlobVersion,
        bytes: &[u8],
    ) -> Result<(), Error> {
        let power = self.session.power();
        self.session.set_power(None);
        let replaced = self.replace_powered(partition, name, version, bytes);
        let calls = if power.is_off { 0 } else { power.left };
        let is_limited = power.is_off || power.is_counting;
        self.session.set_power(is_limited.then_some(calls));
        replaced
    }

    fn replace_powered(
        &mut self,
        partition: &str,
        name: &[u8],
        version: BlobVersion,
        bytes: &[u8],
    ) -> Result<(), Error> {
        let session = &mut self.session;
        match session.by_name(Kind::RemoveBlob, partition, name, [0, 0]) {
            Ok(_) => self.end_blobs(partition, Some(name)),
            Err(Error::PartitionMissing(_) | Error::BlobMissing(..)) => {}
            Err(other) => return Err(other),
        }
        let session = &mut self.session;
        let versions = [version.get(); 2];
        let handle = session
            .by_name(Kind::Open, partition, name, versions)?
            .number;
        let written = session.write(handle, 0, bytes, true);
        session.by_number(Kind::Close, handle, 0)?;
        written
    }

    pub(crate) fn insert(&mut self, handle: usize, opened: &Arc<Opened>) {
        self.opened.push_back((handle, Arc::clone(opened)));
    }

    /// Returns the index of a handle that is open.
    fn place_of(&self, handle: usize) -> Option<usize> {
        self.opened.binary_search_by_key(&handle, |of| of.0).ok()
    }

    /// Takes a handle that is no longer open.
    fn taken(&mut self, handle: usize) -> Option<(usize, Arc<Opened>)> {
        self.opened.remove(self.place_of(handle)?)
    }

    /// Closes a handle. If the power is off, the restart closes it.
    pub(crate) fn close(&mut self, handle: usize, opened: &Opened) {
        if opened.is_closed.load(Ordering::Relaxed) {
            return;
        }
        if self.by_number(Kind::Close, handle, 0).err() != Some(Error::PowerLoss) {
            self.taken(handle);
        }
    }

    /// Closes every handle.
    pub(crate) fn close_all(&mut self) -> Result<(), Error> {
        while let Some((handle, opened)) = self.opened.pop_front() {
            opened.is_closed.store(true, Ordering::Relaxed);
            self.by_number(Kind::Close, handle, 0)?;
        }
        Ok(())
    }

    pub(crate) fn end_handles(&self, why: &'static str) {
        self.opened.iter().for_each(|(_, opened)| opened.end(why));
    }

    pub(crate) fn end_blobs(&self, partition: &str, name: Option<&[u8]>) {
        for (_, opened) in &self.opened {
            if opened.is_of(partition, name) {
                opened.end("its blob was removed since");
            }
        }
    }

    /// Follows the call of a caller's line, which wasn't refused: the handles that it made stale, the setting that it made.
    pub(crate) fn follow(&mut self, line: &str) {
        match tokens(line)[..] {
            ["crash"] => self.has_crashed(),
            ["reopen"] => self.was_reopened(),
            ["close", handle] => self.was_closed(handle),
            ["remove", partition] => self.end_blobs(partition, None),
            ["remove", partition, name] => self.end_blobs(partition, unhex(name).as_deref()),
            ["config", ref setting @ ..] => {
                self.config.apply(setting);
                self.limits.unsynced.set(&self.config);
            }
            ["write", handle, _, bytes] if bytes != "-" => {
                if let Some(key) = self.key_of(handle) {
                    self.limits.unsynced.write(key);
                }
            }
            ["sync" | "startsync", handle] => {
                if let Some(key) = self.key_of(handle) {
                    self.limits.unsynced.sync(key);
                }
            }
            _ => {}
        }
    }

    fn key_of(&self, handle: &str) -> Option<u64> {
        Some(self.opened[self.place_of(handle.parse().ok()?)?].1.key)
    }

    pub(crate) fn has_crashed(&mut self) {
        self.limits.unsynced.crash();
        self.end_handles("the store has crashed since");
    }

    fn was_closed(&mut self, handle: &str) {
        let number = handle.parse::<usize>().ok();
        if let Some((_, opened)) = number.and_then(|number| self.taken(number)) {
            opened.is_closed.store(true, Ordering::Relaxed);
        }
    }

    pub(crate) fn was_reopened(&mut self) {
        self.reopens += 1;
        self.limits.unsynced.clear();
        self.end_handles("the store was reopened since");
    }
}

#[cfg(test)]
mod tests {
    use crate::foreign::Kind;
    use crate::{Config, Error, Probability, Store};

    #[test]
    fn incomplete_settings_are_set_before_the_next_call() {
        let store = Store::builder().open().unwrap();
        let mut state = store.shared.lock();
        state.config = Config::default().scan(Probability::ONE);
        state.is_unset = true;
        state.follow_settings();
        let scanned = state.by_name(Kind::Scan, "p", b"", [0, 0]);
        assert_eq!(scanned.err(), Some(Error::Injected));
        assert!(!state.is_unset);
    }
}
