//! Finds queue.rs, checks that it is the file that is meant, and copies it, unchanged, to where the crate mounts it.

mod sha256;

use std::path::{Path, PathBuf};
use std::{env, fs, process};

/// The sum of queue.rs of rust-std 1.97.0; QUEUE_SHA256 names another file's.
const EXPECTED: &str = "a2b1b14e4ecb9b66e8691680c09bfedefa0fadda7d90521e784ef859f5d760ca";

/// Where the file stands beside the repository; QUEUE_RS names another place.
const BESIDE_THE_REPOSITORY: &str = "../../shared/docs/src/library/std/src/sys/sync/rwlock/queue.rs";

fn refuse(message: &str) -> ! {
    eprintln!("{message}");
    process::exit(1)
}

fn place() -> PathBuf {
    if let Some(named) = env::var_os("QUEUE_RS") {
        return PathBuf::from(named);
    }
    let here = env::var_os("CARGO_MANIFEST_DIR").expect("cargo names the crate's folder");
    Path::new(&here).join(BESIDE_THE_REPOSITORY)
}

fn read(path: &Path) -> Vec<u8> {
    fs::read(path).unwrap_or_else(|why| {
        refuse(&format!(
            "queue.rs is not at {}: {why}\n\
             Set QUEUE_RS to it. With rustup: `rustup component add rust-src`, then it is at\n\
             $(rustc --print sysroot)/lib/rustlib/src/rust/library/std/src/sys/sync/rwlock/queue.rs",
            path.display()
        ))
    })
}

fn main() {
    println!("cargo::rerun-if-env-changed=QUEUE_RS");
    println!("cargo::rerun-if-env-changed=QUEUE_SHA256");
    let path = place();
    println!("cargo::rerun-if-changed={}", path.display());
    let text = read(&path);
    let sum = sha256::hex(&text);
    let expected = env::var("QUEUE_SHA256").unwrap_or(EXPECTED.into());
    if sum != expected {
        refuse(&format!(
            "{} is another file: its sha256 is {sum}, and {expected} is expected.\n\
             To compare the port with that file, set QUEUE_SHA256 to its sum.",
            path.display()
        ));
    }
    let out = PathBuf::from(env::var_os("OUT_DIR").expect("cargo names the output folder"));
    fs::write(out.join("queue.rs"), text).expect("queue.rs is copied");
    fs::write(out.join("mount.rs"), "#[path = \"queue.rs\"]\nmod queue;\n").expect("its mount is written");
    println!("cargo::rustc-env=QUEUE_SHA256={sum}");
}
