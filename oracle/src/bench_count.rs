//! Instructions of each side of a benchmark, counted by Callgrind.

use std::env;
use std::fs;
use std::io;
use std::path::Path;
use std::process::{self, Command};

use crate::bench::bench_measured;

/// Where the C library fills or copies memory with one repeated instruction, Callgrind counts each
/// repetition. With this it uses a loop over wide registers instead.
const NO_REP: &str =
    "glibc.cpu.x86_rep_stosb_threshold=4294967295:glibc.cpu.x86_rep_movsb_threshold=4294967295";

/// Runs `bench --once` under Callgrind, which writes a file after each measured call, and reads the
/// counts in their order.
pub fn count(only: &str) -> io::Result<Vec<u64>> {
    let folder = env::temp_dir().join(format!("oracle-bench-{}", process::id()));
    fs::create_dir_all(&folder)?;
    let counts = run(&folder, only).and_then(|()| read(&folder));
    fs::remove_dir_all(&folder)?;
    counts
}

fn run(folder: &Path, only: &str) -> io::Result<()> {
    // The name by which Callgrind knows a measured call; taken here so that it stays in the program.
    let _ = bench_measured;
    let measured = "bench_measured";
    let status = Command::new("valgrind")
        .env("GLIBC_TUNABLES", NO_REP)
        .args(["--tool=callgrind", "--quiet", "--collect-atstart=no"])
        .arg(format!("--toggle-collect={measured}"))
        .arg(format!("--dump-after={measured}"))
        .arg(format!(
            "--callgrind-out-file={}",
            folder.join("out").display()
        ))
        .arg(env::current_exe()?)
        .args(["bench", "--once", "--only", only])
        .status()?;
    match status.success() {
        true => Ok(()),
        false => Err(io::Error::other(format!("valgrind ended with {status}"))),
    }
}

/// The totals of the files `out.1`, `out.2` and so on.
fn read(folder: &Path) -> io::Result<Vec<u64>> {
    let mut counts = Vec::new();
    for number in 1.. {
        let file = folder.join(format!("out.{number}"));
        if !file.exists() {
            break;
        }
        let text = fs::read_to_string(file)?;
        let total = text.lines().find_map(|line| line.strip_prefix("summary: "));
        let total = total.and_then(|total| total.trim().parse().ok());
        counts.push(total.ok_or_else(|| io::Error::other("a file of Callgrind without a total"))?);
    }
    Ok(counts)
}
