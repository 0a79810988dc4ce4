//! The state of files: their session, and what they know of it.
use super::crash::Crash;
use super::foreign::{Kind, RawCall, Reply};
use super::library::{Name, Session, changes};
use super::record::Call;
use crate::limits::Limits;
use crate::record::Record;
use crate::{Config, Error};

/// The state of files.
#[derive(Debug)]
pub(crate) struct State {
    pub(crate) session: Session,
    pub(crate) limits: Limits,
    config: Config,
    /// Whether the session's faults aren't those of `config`: setting them was cut short.
    is_unset: bool,
    /// How many crashes there were. A file of an earlier life is stale.
    pub(crate) life: u64,
    pub(crate) syncs_lie: bool,
}

impl State {
    pub(crate) fn new(session: Session, config: Config, limits: Limits) -> State {
        State {
            session,
            limits,
            config,
            is_unset: false,
            life: 0,
            syncs_lie: false,
        }
    }

    /// Returns another state, over a fork of the session. It isn't that of a search's run.
    pub(crate) fn fork(&mut self) -> Result<State, Error> {
        let mut fork = State::new(self.session.fork()?, self.config, Limits::default());
        (fork.is_unset, fork.syncs_lie) = (self.is_unset, self.syncs_lie);
        Ok(fork)
    }

    /// Does what precedes a call: sets the faults if they aren't complete, and follows the path of an explored run.
    pub(crate) fn permit(&mut self, kind: Kind) -> Result<(), Error> {
        self.limits.count_call()?;
        if self.is_unset {
            self.set(self.config)?;
        }
        self.limits.permit(&mut self.session, || changes(kind));
        Ok(())
    }

    /// Makes a call.
    pub(crate) fn call(&mut self, call: &Call<'_>) -> Result<Reply, Error> {
        self.permit(call.asked.kind)?;
        let RawCall { kind, number, .. } = call.asked;
        let inode = match kind {
            Kind::Sync | Kind::SyncData => self.searched_inode(number),
            _ => None,
        };
        let reply = self.session.call(call)?;
        match (kind, inode) {
            (_, Some(inode)) if !self.syncs_lie => self.limits.unsynced.sync(inode),
            (Kind::SyncAll, _) if !self.syncs_lie => self.limits.unsynced.clear(),
            (Kind::Settle, _) => self.limits.unsynced.clear(),
            _ => {}
        }
        Ok(reply)
    }

    /// Returns the inode of an open file of a search's run, before the power may go off at a call of it.
    fn searched_inode(&mut self, file: u64) -> Option<u64> {
        self.limits.is_search().then(|| self.inode_of(file))
    }

    /// Returns the inode of an open file. Not recorded.
    fn inode_of(&mut self, file: u64) -> u64 {
        let found = self.session.apply(&Call::of_number(Kind::InodeOf, file, 0));
        found.map_or(0, |reply| reply.number)
    }

    /// Makes a call by a path.
    pub(crate) fn by_path(&mut self, kind: Kind, path: &[u8]) -> Result<Reply, Error> {
        self.call(&Call::of_path(kind, path))
    }

    /// Makes a call by a number.
    pub(crate) fn by_number(&mut self, kind: Kind, number: u64) -> Result<Reply, Error> {
        self.call(&Call::of_number(kind, number, 0))
    }

    pub(crate) fn write(&mut self, file: u64, offset: u64, bytes: &[u8]) -> Result<(), Error> {
        self.permit(Kind::Write)?;
        let inode = self.searched_inode(file);
        self.session.write(file, offset, bytes)?;
        if let Some(inode) = inode {
            self.limits.unsynced.write(inode);
        }
        Ok(())
    }

    pub(crate) fn read(&mut self, file: u64, offset: u64, into: &mut [u8]) -> Result<usize, Error> {
        self.permit(Kind::Read)?;
        self.session.read(file, offset, into)
    }

    /// Returns whether nothing has a path. Not recorded.
    pub(crate) fn is_missing(&mut self, path: &[u8]) -> bool {
        let found = self.session.apply(&Call::of_path(Kind::Find, path));
        matches!(found, Err(Error::NotFound))
    }

    /// Returns the names in a directory.
    pub(crate) fn list(&mut self, path: &[u8]) -> Result<Vec<Name>, Error> {
        let count = self.by_path(Kind::List, path)?.size;
        let mut names = Vec::new();
        for index in 0..count as usize {
            names.extend(self.session.name(index)?);
        }
        Ok(names)
    }

    /// Crashes and recovers. Returns what was kept of each pending write and of each unsettled edit.
    pub(crate) fn crash(&mut self) -> Result<Crash, Error> {
        let reply = self.by_number(Kind::Crash, 0)?;
        let kept = self.session.kept(&reply);
        self.record(|record| record.push_kept(&kept.writes, &kept.edits));
        self.limits.unsynced.crash();
        self.life += 1;
        Ok(kept)
    }

    /// Replaces the faults, or leaves the earlier ones. If these can't be set again, the next call sets them first, or returns
    /// `OutOfMemory`.
    pub(crate) fn configure(&mut self, config: Config) -> Result<(), Error> {
        self.limits.count_call()?;
        let earlier = self.config;
        let outcome = self.set(config);
        if outcome.is_err() {
            self.config = earlier;
            let _ = self.set(earlier);
        }
        outcome
    }

    fn set(&mut self, config: Config) -> Result<(), Error> {
        self.is_unset = true;
        self.setting("config clear")?;
        for line in config.lines() {
            self.setting(&line)?;
        }
        self.config = config;
        self.limits.unsynced.set(&config);
        self.is_unset = false;
        Ok(())
    }

    fn setting(&mut self, line: &str) -> Result<(), Error> {
        self.session.configure(line)?;
        self.record(|record| record.push_line(line));
        Ok(())
    }

    fn record(&mut self, push: impl FnOnce(&mut Record<RawCall>)) {
        if let Some(record) = &mut self.session.record {
            push(record);
        }
    }
}
