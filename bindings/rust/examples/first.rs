//! A record that is acknowledged before a sync: every outcome of a crash, and how many lose a part of the record.
use blobcrash::{
    Config, Error, ExploreError, PartialWriteMode, Probability, Store, WriteConfig, WriteOptions,
    explore,
};

fn main() -> Result<(), ExploreError<Error>> {
    // No write fails; a crash keeps each byte of an unsynced write or loses it.
    let config = Config::default().write(WriteConfig {
        failure_rate: Probability::ZERO,
        retention_rate: Probability::new(1, 2).unwrap(),
        mode: PartialWriteMode::Subset,
    });
    let builder = Store::builder().config(config);
    let visited = explore(&builder, u64::MAX, |store| {
        let (log, _) = store.open("wal", b"0")?;
        log.write_at(0, b"record", WriteOptions::default())?; // acknowledged, and not synced
        store.restart()?;
        let (log, size) = store.open("wal", b"0")?;
        Ok(log.read_at(0, size as usize)? == b"record")
    })?;
    println!(
        "{} of {} outcomes lose a part of it",
        visited.outcomes[&false], visited.runs
    );
    Ok(())
}
