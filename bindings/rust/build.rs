//! Links `libblobcrash.a`: in the directory that `BLOBCRASH_LIB_DIR` names, or else in `lib` of this crate, as in a release, or else
//! that of a clone: in `out` at the top, where `sh bindings/build.sh` proves and builds it. If that one isn't current, it is one that
//! is compiled without a proof; with `BLOBCRASH_PROVED` never.
use std::path::Path;
use std::process::Command;

/// The directory of the library in a clone, for which `bindings/build.sh --unproved` asks.
fn of_clone(top: &str) -> String {
    let built = format!("{top}/out");
    let script = format!("{top}/bindings/build.sh");
    let is_proved = std::env::var("BLOBCRASH_PROVED").is_ok_and(|word| !word.is_empty());
    if is_proved || !Path::new(&script).exists() {
        return built;
    }
    println!("cargo:rerun-if-changed={top}/crates");
    println!("cargo:rerun-if-changed={top}/crates.txt");
    match Command::new("sh").args([&script, "--unproved"]).output() {
        Ok(made) if made.status.success() => {
            for line in String::from_utf8_lossy(&made.stderr).lines() {
                println!("cargo:warning={line}");
            }
            String::from_utf8_lossy(&made.stdout)
                .trim_end_matches('\n')
                .to_owned()
        }
        _ => built,
    }
}

fn main() {
    let here = std::env::var("CARGO_MANIFEST_DIR").expect("cargo names the crate's directory");
    println!("cargo:rerun-if-env-changed=BLOBCRASH_LIB_DIR");
    println!("cargo:rerun-if-env-changed=BLOBCRASH_PROVED");
    let released = format!("{here}/lib");
    let directory = std::env::var("BLOBCRASH_LIB_DIR").unwrap_or_else(|_| {
        if Path::new(&released).join("libblobcrash.a").exists() {
            released
        } else {
            of_clone(&format!("{here}/../.."))
        }
    });
    let library = Path::new(&directory).join("libblobcrash.a");
    println!("cargo:rerun-if-changed={}", library.display());
    if !library.exists() {
        println!(
            "cargo:warning={} isn't there: build it by `sh bindings/build.sh`",
            library.display()
        );
    }
    println!("cargo:rustc-check-cfg=cfg(blobcrash_unproved)");
    let mark = b"blobcrash_unproved";
    if std::fs::read(&library).is_ok_and(|bytes| bytes.windows(mark.len()).any(|at| at == mark)) {
        println!("cargo:rustc-cfg=blobcrash_unproved");
    }
    println!("cargo:rustc-link-search=native={directory}");
    println!("cargo:rustc-link-lib=static=blobcrash");
}
