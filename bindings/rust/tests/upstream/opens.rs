//! Exclusive opens, over a store and over a storage of the test's own.
use crate::{block_on, plain_store};
use blobcrash::asynchronous::{Blob as _, ReadOptions, Storage};
use blobcrash::storage::{self, BlobVersion, Handle, IoBufs, IoBufsMut};
use blobcrash::{Error, Opens, WriteOptions};
use std::ops::RangeInclusive;
use std::sync::Arc;
use std::sync::atomic::{AtomicUsize, Ordering};

/// A storage that forwards each call and counts the opens.
#[derive(Clone)]
struct Recording<S> {
    inner: S,
    opens: Arc<AtomicUsize>,
}

impl<S: storage::Storage> storage::Storage for Recording<S> {
    type Blob = Forwarded<S::Blob>;

    fn open_versioned(
        &self,
        partition: &str,
        name: &[u8],
        versions: RangeInclusive<BlobVersion>,
    ) -> Result<(Self::Blob, u64, BlobVersion), Error> {
        self.opens.fetch_add(1, Ordering::Relaxed);
        let (blob, size, version) = self.inner.open_versioned(partition, name, versions)?;
        Ok((Forwarded(blob), size, version))
    }

    fn remove(&self, partition: &str, name: Option<&[u8]>) -> Result<(), Error> {
        self.inner.remove(partition, name)
    }

    fn scan(&self, partition: &str) -> Result<Vec<Vec<u8>>, Error> {
        self.inner.scan(partition)
    }
}

struct Forwarded<B>(B);

impl<B: storage::Blob> storage::Blob for Forwarded<B> {
    fn read_at(&self, offset: u64, len: usize, options: ReadOptions) -> Result<IoBufsMut, Error> {
        self.0.read_at(offset, len, options)
    }

    fn read_at_buf(
        &self,
        offset: u64,
        len: usize,
        bufs: impl Into<IoBufsMut> + Send,
        options: ReadOptions,
    ) -> Result<IoBufsMut, Error> {
        self.0.read_at_buf(offset, len, bufs, options)
    }

    fn write_at(
        &self,
        offset: u64,
        bufs: impl Into<IoBufs> + Send,
        options: WriteOptions,
    ) -> Result<(), Error> {
        self.0.write_at(offset, bufs, options)
    }

    fn resize(&self, len: u64) -> Result<(), Error> {
        self.0.resize(len)
    }

    fn sync(&self) -> Result<(), Error> {
        self.0.sync()
    }

    fn start_sync(&self) -> Handle<()> {
        self.0.start_sync()
    }
}

async fn is_open<S: Storage>(storage: &S) -> bool {
    match storage.open("partition", b"blob").await {
        Err(Error::BlobAlreadyOpen(partition, name)) => {
            partition == "partition" && name == "626c6f62"
        }
        _ => false,
    }
}

/// Opens a blob and reads what it has.
async fn opened<S: Storage>(storage: &S, bytes: &[u8]) -> S::Blob {
    let (blob, size) = storage.open("partition", b"blob").await.unwrap();
    assert_eq!(size, bytes.len() as u64);
    let read = blob.read_at(0, bytes.len(), ReadOptions::default());
    assert_eq!(read.await.unwrap().coalesce(), bytes);
    blob
}

async fn check_logical_opens<S: Storage>(storage: S, shared: S) {
    for name in [Some(b"blob".as_slice()), None] {
        let first = Arc::new(opened(&storage, b"").await);
        first
            .write_at(0, b"saved", WriteOptions::SYNC)
            .await
            .unwrap();
        let retained = Arc::clone(&first);
        assert!(is_open(&shared).await);
        drop(first);
        assert!(is_open(&shared).await);
        drop(retained);
        let old = opened(&shared, b"saved").await;
        storage.remove("partition", name).await.unwrap();
        let current = opened(&shared, b"").await;
        let read = old.read_at(0, 5, ReadOptions::default());
        assert_eq!(read.await.unwrap().coalesce(), b"saved");
        drop(old);
        assert!(is_open(&storage).await);
        current
            .write_at(0, b"fresh", WriteOptions::SYNC)
            .await
            .unwrap();
        drop(current);
        drop(opened(&storage, b"fresh").await);
        shared.remove("partition", None).await.unwrap();
    }
}

#[test]
fn test_public_memory_logical_open() {
    let store = plain_store();
    block_on(check_logical_opens(store.clone(), store));
    let opens = Arc::new(AtomicUsize::new(0));
    let inner = plain_store();
    let first = Recording { inner, opens };
    let second = first.clone();
    let opens = Arc::clone(&first.opens);
    block_on(check_logical_opens(first, second));
    assert_eq!(opens.load(Ordering::Relaxed), 14);
}

/// The counterpart pauses an open while the last handle is dropped. Here the two threads race.
#[test]
fn test_open_racing_last_blob_drop() {
    let store = plain_store();
    let (blob, _) = store.open("partition", b"blob").unwrap();
    blob.write_at(0, b"saved", WriteOptions::default()).unwrap();
    blob.sync().unwrap();
    assert!(block_on(is_open(&store)));
    let dropper = std::thread::spawn(move || drop(blob));
    while block_on(is_open(&store)) {
        std::thread::yield_now();
    }
    dropper.join().unwrap();
    drop(store.open("partition", b"independent").unwrap());
    drop(block_on(opened(&store, b"saved")));
}

#[test]
fn test_replace_retires_only_matching_registrations() {
    let inner = plain_store();
    let opens = Opens::new().unwrap();
    let open = |partition: &str, name: &[u8]| {
        opens.open(partition, name, || {
            let versions = storage::DEFAULT_BLOB_VERSION..=storage::DEFAULT_BLOB_VERSION;
            let (blob, size) = inner.open_loose(partition, name, 0..=0)?;
            Ok((blob, size, *versions.start()))
        })
    };
    let refused = |partition: &str, name: &[u8]| {
        matches!(open(partition, name), Err(Error::BlobAlreadyOpen(..)))
    };
    let ax = open("a", b"x").unwrap();
    let ay = open("a", b"y").unwrap();
    let bx = open("b", b"x").unwrap();

    let failed = opens.replace("a", None, || Err::<(), _>(Error::Closed));
    assert_eq!(failed, Err(Error::Closed));
    assert!(refused("a", b"x") && refused("a", b"y") && refused("b", b"x"));

    opens.replace("a", Some(b"x"), || Ok(())).unwrap();
    assert!(refused("a", b"y") && refused("b", b"x"));
    let current = open("a", b"x").unwrap();
    drop(ax);
    assert!(refused("a", b"x"));

    opens.replace("a", None, || Ok(())).unwrap();
    drop(open("a", b"x").unwrap());
    drop(open("a", b"y").unwrap());
    assert!(refused("b", b"x"));
    drop((current, ay, bx));
}
