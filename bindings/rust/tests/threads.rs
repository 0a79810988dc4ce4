//! A store that threads share.
use blobcrash::{Blob, Error, StartedSync, Store, WriteOptions};
use std::sync::Arc;
use std::thread;

fn is_shared<T: Send + Sync + 'static>() {}

#[test]
fn stores_blobs_and_started_syncs_may_be_sent() {
    is_shared::<Store>();
    is_shared::<Blob>();
    is_shared::<StartedSync>();
}

#[test]
fn a_clone_is_the_same_store() {
    let store = Store::builder().seed(7).open().unwrap();
    let other = store.clone();
    let (blob, _) = store.open("p", b"b").unwrap();
    assert!(matches!(
        other.open("p", b"b"),
        Err(Error::BlobAlreadyOpen(..))
    ));
    other.restart().unwrap();
    assert!(blob.is_stale());
    drop(store);
    assert_eq!(
        blob.size(),
        other.open("q", b"b").unwrap().0.sync().and(blob.size())
    );
    assert_eq!(other.scan("p").unwrap(), [b"b"]);
}

const THREADS: u64 = 8;
const WRITES: u64 = 200;

fn content(store: &Store, name: &[u8]) -> Vec<u8> {
    let (blob, size) = store.open("p", name).unwrap();
    blob.read_at(0, size as usize).unwrap()
}

/// Each thread writes to a blob of its own, and to one that all have.
#[test]
fn threads_share_a_store() {
    let store = Store::builder().seed(7).open().unwrap();
    let (common, _) = store.open("p", b"common").unwrap();
    let common = Arc::new(common);
    let threads: Vec<_> = (0..THREADS)
        .map(|number| {
            let (store, common) = (store.clone(), Arc::clone(&common));
            thread::spawn(move || {
                let (blob, _) = store.open("p", &[number as u8]).unwrap();
                for place in 0..WRITES {
                    let byte = [place as u8];
                    blob.write_at(place, &byte, WriteOptions::default())
                        .unwrap();
                    common
                        .write_at(THREADS * place + number, &byte, WriteOptions::SYNC)
                        .unwrap();
                }
                blob.start_sync().unwrap()
            })
        })
        .collect();
    // A started sync is finished by another thread.
    for thread in threads {
        thread.join().unwrap().finish().unwrap();
    }
    store.restart().unwrap();
    let bytes: Vec<u8> = (0..WRITES).map(|place| place as u8).collect();
    for number in 0..THREADS {
        assert_eq!(content(&store, &[number as u8]), bytes);
    }
    let all = (0..THREADS * WRITES).map(|at| (at / THREADS) as u8);
    assert_eq!(content(&store, b"common"), all.collect::<Vec<_>>());
    // The calls of all threads are one script.
    let replies = blobcrash::run_script(store.script().as_bytes()).unwrap();
    assert!(!String::from_utf8(replies).unwrap().contains("error"));
}

#[test]
fn a_panic_of_a_thread_leaves_the_store() {
    let store = Store::builder().seed(7).open().unwrap();
    let other = store.clone();
    let panicked = thread::spawn(move || {
        let (_blob, _) = other.open("p", b"b").unwrap();
        panic!("on purpose");
    });
    assert!(panicked.join().is_err());
    assert!(store.open("p", b"b").is_ok());
}
