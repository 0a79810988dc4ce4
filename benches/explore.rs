//! For benches/explore.sh: explores 64 runs as often as the first argument says. A run writes six bytes, crashes, and reads what is left.
use blobcrash::{
    Config, Error, ExploreError, PartialWriteMode, Probability, Store, WriteConfig, WriteOptions,
    explore,
};

fn main() -> Result<(), ExploreError<Error>> {
    let config = Config::default().write(WriteConfig {
        failure_rate: Probability::ZERO,
        retention_rate: Probability::new(1, 2).unwrap(),
        mode: PartialWriteMode::Subset,
    });
    let builder = Store::builder().config(config);
    let times = std::env::args().nth(1).and_then(|word| word.parse().ok());
    for _ in 0..times.unwrap_or(1) {
        let visited = explore(&builder, u64::MAX, |store| {
            let (log, _) = store.open("wal", b"0")?;
            log.write_at(0, b"record", WriteOptions::default())?;
            store.restart()?;
            let (log, size) = store.open("wal", b"0")?;
            log.read_at(0, size as usize)
        })?;
        assert_eq!(visited.runs, 64);
    }
    Ok(())
}
