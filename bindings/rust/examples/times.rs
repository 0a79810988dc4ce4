//! Times calls from Rust, on standard error. Each figure takes about as many seconds as the first argument says.
use blobcrash::{Error, Store, WriteOptions};
use std::time::Instant;

fn tell(
    seconds: f64,
    name: &str,
    calls: f64,
    mut once: impl FnMut(u64) -> Result<(), Error>,
) -> Result<(), Error> {
    let (mut rounds, began) = (0_u64, Instant::now());
    while began.elapsed().as_secs_f64() < seconds {
        for _ in 0..128 {
            once(rounds)?;
            rounds += 1;
        }
    }
    let each = began.elapsed().as_secs_f64() / (calls * rounds as f64);
    eprintln!(
        "Rust, {name}: {:.0} calls/s, {:.0} ns each",
        1.0 / each,
        each * 1e9
    );
    Ok(())
}

fn main() -> Result<(), Error> {
    let seconds = std::env::args().nth(1).and_then(|word| word.parse().ok());
    let seconds = seconds.unwrap_or(0.5);
    let store = Store::builder().unrecorded().open()?;
    let (blob, _) = store.open("p", b"b")?;
    tell(seconds, "size", 1.0, |_| blob.size().map(drop))?;
    for len in [8, 512, 4096] {
        let block: Vec<u8> = (0..len).map(|i| (7 * i % 256) as u8).collect();
        let mut back = block.clone();
        let name = format!("write and read of {len} bytes");
        tell(seconds, &name, 2.0, |n| {
            let at = n % 64 * block.len() as u64;
            blob.write_at(at, &block, WriteOptions::default())?;
            blob.read_at_buf(at, &mut back)?;
            if n % 64 == 63 {
                blob.sync()?;
            }
            Ok(())
        })?;
    }
    Ok(())
}
