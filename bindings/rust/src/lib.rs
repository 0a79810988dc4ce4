//! A storage layer for tests of crash recovery.
//!
//! A [`Store`] holds blobs by partition and name. Calls fail by chosen rates, a crash keeps only some of the bytes that weren't
//! synced, and [`Store::restart`] is a crash, after which the store has what is durable.
//!
//! ```
//! use blobcrash::{Config, PartialWriteMode, Probability, Store, WriteConfig, WriteOptions};
//!
//! let store = Store::builder()
//!     .seed(7)
//!     .config(Config::default().write(WriteConfig {
//!         failure_rate: Probability::ZERO,
//!         retention_rate: Probability::new(1, 2).unwrap(),
//!         mode: PartialWriteMode::Subset,
//!     }))
//!     .open()?;
//! let (log, _) = store.open("wal", b"0")?;
//! log.write_at(0, b"record", WriteOptions::SYNC)?;
//! log.write_at(6, b"another", WriteOptions::default())?;
//! store.restart()?;
//! let (log, size) = store.open("wal", b"0")?;
//! assert!(size >= 6);
//! assert_eq!(log.read_at(0, 6)?, b"record");
//! # Ok::<(), blobcrash::Error>(())
//! ```
//!
//! The layer itself is proved; this crate, which only calls it, is tested. Threads may share a [`Store`]: each call takes its lock.
//!
//! - [`storage`] and [`asynchronous`] have the traits of the ported crate, for code that is written for any storage.
//! - [`files`] has a file system with names, directories and renames, by the rules of ext4, XFS, btrfs or POSIX alone.
//! - [`explore`] and [`Exploration`] call a test once for each outcome of its draws, choices and power losses; [`seeds`] calls it once for
//!   each seed.
//! - [`header`] makes and resolves header regions.
#![warn(missing_docs)]

#[cfg(feature = "async")]
pub mod asynchronous;
mod blob;
mod buffers;
mod builder;
mod choices;
mod config;
mod debt_calls;
mod durable;
mod error;
mod expecting;
mod explore;
pub mod files;
mod foreign;
mod fork;
mod handle;
pub mod header;
mod library;
mod limits;
mod opens;
mod path_text;
mod paths;
mod pending;
mod power;
mod record;
mod replay;
mod run;
mod script;
mod seeds;
mod session;
mod shared;
mod shrink;
pub mod storage;
mod store;
mod unsynced;
mod whole_script;
mod words;

/// The version of the crate, and whether the library that it is linked with is proved: `blobcrash 0.3.0, proved`, or `.., not proved`.
///
/// ```
/// let text = blobcrash::version();
/// assert!(text.starts_with("blobcrash ") && text.ends_with(if blobcrash::is_proved() { ", proved" } else { ", not proved" }));
/// ```
#[must_use]
pub const fn version() -> &'static str {
    if is_proved() {
        concat!("blobcrash ", env!("CARGO_PKG_VERSION"), ", proved")
    } else {
        concat!("blobcrash ", env!("CARGO_PKG_VERSION"), ", not proved")
    }
}

/// Whether the library that this crate is linked with is proved. One that a clone compiles without a proof isn't.
///
/// ```
/// assert_eq!(blobcrash::is_proved(), !blobcrash::version().contains("not"));
/// ```
#[must_use]
pub const fn is_proved() -> bool {
    !cfg!(blobcrash_unproved)
}

pub use blob::{Blob, StartedSync, WriteOptions};
pub use builder::Builder;
pub use config::{Config, PartialWriteMode, Probability, ResizeConfig, WriteConfig};
pub use error::Error;
pub use explore::{Exploration, ExploreError, Explored, explore};
pub use opens::{Opened, Opens};
pub use pending::{Generation, Pending, Receiver, Sender};
pub use run::{Explorable, Run};
pub use seeds::seeds;
pub use shrink::{Shrunk, shrink};
pub use store::{Selections, Store};
pub use whole_script::{ScriptError, explain_script, explain_script_json, run_script};
