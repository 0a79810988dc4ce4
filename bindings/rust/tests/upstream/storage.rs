//! What the ported crate checks of any storage, over the traits with futures.
use crate::{block_on, plain_store};
use blobcrash::asynchronous::{Blob, ReadOptions, Storage, WriteOptions};
use std::sync::Arc;

const PLAIN: fn() -> WriteOptions = WriteOptions::default;

#[test]
fn test_memory_storage() {
    let storage = plain_store();
    block_on(async {
        test_open_and_write(&storage).await;
        test_remove(&storage).await;
        test_read_after_remove_blob(&storage).await;
        test_read_after_remove_partition(&storage).await;
        test_recreate_after_remove(&storage).await;
        test_read_after_remove_unsynced(&storage).await;
        test_read_after_remove_shared_owners(&storage).await;
        test_recreate_generations(&storage).await;
        test_read_after_remove_partition_multi(&storage).await;
    });
}

/// Whether a handle has these bytes at an offset.
async fn has<B: Blob>(blob: &B, offset: u64, bytes: &[u8]) -> bool {
    let read = blob.read_at(offset, bytes.len(), ReadOptions::default());
    read.await.unwrap().coalesce() == bytes
}

/// Opens a new blob and writes to it.
async fn written<S: Storage>(storage: &S, partition: &str, name: &[u8], data: &[u8]) -> S::Blob {
    let (blob, len) = storage.open(partition, name).await.unwrap();
    assert_eq!(len, 0, "a new blob is empty");
    blob.write_at(0, data, PLAIN()).await.unwrap();
    blob
}

async fn test_open_and_write<S: Storage>(storage: &S) {
    let blob = written(storage, "partition", b"test_blob", b"hello world").await;
    assert!(has(&blob, 0, b"hello world").await);
}

async fn test_remove<S: Storage>(storage: &S) {
    storage.open("partition", b"test_blob").await.unwrap();
    let removal = storage.remove("partition", Some(b"test_blob"));
    removal.await.unwrap();
    assert!(storage.scan("partition").await.unwrap().is_empty());
}

async fn test_read_after_remove_blob<S: Storage>(storage: &S) {
    let data: Vec<u8> = (0..=255).collect();
    let blob = written(storage, "read_after_remove", b"by_name", &data).await;
    blob.sync().await.unwrap();
    let removal = storage.remove("read_after_remove", Some(b"by_name"));
    removal.await.unwrap();
    assert!(storage.scan("read_after_remove").await.unwrap().is_empty());
    assert!(has(&blob, 0, &data).await);
}

async fn test_read_after_remove_partition<S: Storage>(storage: &S) {
    let data: Vec<u8> = (0..=255).rev().collect();
    let partition = "read_after_remove_partition";
    let blob = written(storage, partition, b"victim", &data).await;
    blob.sync().await.unwrap();
    storage.remove(partition, None).await.unwrap();
    assert!(has(&blob, 0, &data).await);
}

async fn test_recreate_after_remove<S: Storage>(storage: &S) {
    let partition = "recreate_after_remove";
    let old = written(storage, partition, b"name", b"old contents").await;
    old.sync().await.unwrap();
    storage.remove(partition, Some(b"name")).await.unwrap();
    let new = written(storage, partition, b"name", b"new contents").await;
    new.sync().await.unwrap();
    assert!(has(&old, 0, b"old contents").await);
    assert!(has(&new, 0, b"new contents").await);
}

async fn test_read_after_remove_unsynced<S: Storage>(storage: &S) {
    let data: Vec<u8> = (0..=255).cycle().take(64 * 1024).collect();
    let partition = "read_after_remove_unsynced";
    let blob = written(storage, partition, b"name", &data).await;
    assert!(has(&blob, 0, &data[..16]).await);
    storage.remove(partition, Some(b"name")).await.unwrap();
    assert!(has(&blob, 0, &data).await);
    let last = data.len() - 1;
    assert!(has(&blob, last as u64, &data[last..]).await);
}

async fn test_read_after_remove_shared_owners<S: Storage>(storage: &S) {
    let data: Vec<u8> = (0..=255).collect();
    let partition = "read_after_remove_shared";
    let first = Arc::new(written(storage, partition, b"name", &data).await);
    first.sync().await.unwrap();
    let second = Arc::clone(&first);
    storage.remove(partition, Some(b"name")).await.unwrap();
    let third = Arc::clone(&first);
    drop(first);
    for blob in [&second, &third] {
        assert!(has(&**blob, 0, &data).await);
        let past = blob.read_at(data.len() as u64, 1, ReadOptions::default());
        assert!(past.await.is_err());
    }
}

async fn test_recreate_generations<S: Storage>(storage: &S) {
    let partition = "recreate_generations";
    let mut handles = Vec::new();
    for generation in 0..3 {
        let data = vec![generation; 32];
        let blob = written(storage, partition, b"name", &data).await;
        blob.sync().await.unwrap();
        storage.remove(partition, Some(b"name")).await.unwrap();
        handles.push((blob, data));
    }
    for _ in 0..5 {
        let blob = written(storage, partition, b"name", &[0xFF; 8]).await;
        blob.sync().await.unwrap();
        drop(blob);
        storage.remove(partition, Some(b"name")).await.unwrap();
    }
    for (blob, data) in &handles {
        assert!(has(blob, 0, data).await);
    }
}

async fn test_read_after_remove_partition_multi<S: Storage>(storage: &S) {
    let partition = "read_after_remove_partition_multi";
    let data: Vec<u8> = (0..=255).cycle().take(1 << 20).collect();
    let small_a = written(storage, partition, b"a", b"alpha").await;
    small_a.sync().await.unwrap();
    // Never synced: a removal doesn't lose these bytes either.
    let small_b = written(storage, partition, b"b", b"bravo").await;
    let large = written(storage, partition, b"large", &data).await;
    large.sync().await.unwrap();
    storage.remove(partition, None).await.unwrap();
    assert!(has(&small_a, 0, b"alpha").await);
    assert!(has(&small_b, 0, b"bravo").await);
    assert!(has(&large, 500_000, &data[500_000..600_000]).await);
    let fresh = written(storage, partition, b"a", b"again").await;
    assert!(has(&small_a, 0, b"alpha").await);
    assert!(has(&fresh, 0, b"again").await);
}
