//! Tests with the names and the expected values of the ported crate's own, over the traits of this crate.
//!
//! Each asserts what its counterpart does. If a counterpart pauses a thread, two threads race instead.
#![cfg(feature = "async")]

#[path = "upstream/header.rs"]
mod header;
#[path = "upstream/memory.rs"]
mod memory;
#[path = "upstream/opens.rs"]
mod opens;
#[path = "upstream/pending.rs"]
mod pending;
#[path = "upstream/storage.rs"]
mod storage;

use blobcrash::Store;
use blobcrash::header::Layout;
use blobcrash::storage::BlobVersion;
use std::future::Future;
use std::ops::RangeInclusive;
use std::pin::pin;
use std::task::{Context, Poll, Waker};

/// Returns what a future that doesn't wait returns.
fn block_on<F: Future>(future: F) -> F::Output {
    match pin!(future).poll(&mut Context::from_waker(Waker::noop())) {
        Poll::Ready(output) => output,
        Poll::Pending => panic!("a future of this crate waits"),
    }
}

/// A store of which stale handles may be used, as in the ported crate.
fn plain_store() -> Store {
    Store::builder().allow_stale().open().unwrap()
}

fn versions(first: u16, last: u16) -> RangeInclusive<BlobVersion> {
    BlobVersion::new(first)..=BlobVersion::new(last)
}

/// The raw bytes of a blob with this layout and version.
fn blob_bytes(layout: Layout, version: u16, payload: &[u8]) -> Vec<u8> {
    let (mut raw, _) = blobcrash::header::create(&(layout..=layout), &versions(version, version));
    raw.extend(payload);
    raw
}
