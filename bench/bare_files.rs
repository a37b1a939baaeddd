//! The bare calls of the system that a store makes for many small files, beside which `tsdb_bench` measures a store.
//! `make bench GROUP=stored` compiles it by rustc, with std alone.

use std::fs::{self, File, OpenOptions};
use std::io;
use std::os::unix::fs::FileExt;
use std::time::Instant;

/// The folder of the files, which is made and removed here.
const FOLDER: &str = "bench.bare";

/// How many files there are, and how many bytes each has: as many as in `crates/tsdb_bench/src/stored.rt`.
const FILES: u64 = 20_000;
const BYTES: usize = 1_000;

fn path(number: u64) -> String {
    format!("{FOLDER}/{number}.tsfile")
}

/// Creates a file, and makes it and its name durable.
fn put(directory: &File, number: u64) -> io::Result<()> {
    let file = OpenOptions::new().write(true).create_new(true).open(path(number))?;
    file.write_all_at(&[7; BYTES], 0)?;
    file.sync_all()?;
    directory.sync_all()
}

/// Counts the files.
fn list() -> io::Result<()> {
    let mut found = 0;
    for entry in fs::read_dir(FOLDER)? {
        found += u64::from(entry?.file_type()?.is_file());
    }
    if found == FILES { Ok(()) } else { Err(io::ErrorKind::InvalidData.into()) }
}

/// Reads a whole file.
fn read(number: u64) -> io::Result<()> {
    let file = File::open(path(number))?;
    if file.metadata()?.len() != BYTES as u64 {
        return Err(io::ErrorKind::InvalidData.into());
    }
    file.read_exact_at(&mut [0; BYTES], 0)
}

/// Makes the calls, and prints their row.
fn row(step: &str, mut calls: impl FnMut() -> io::Result<()>) -> io::Result<()> {
    let start = Instant::now();
    calls()?;
    let rate = FILES as f64 / start.elapsed().as_secs_f64();
    println!("{:<50} {step:<10} {rate:>12.3} a second", "1 kB files, by bare calls");
    Ok(())
}

fn rows(directory: &File) -> io::Result<()> {
    row("put", || (1..=FILES).try_for_each(|number| put(directory, number)))?;
    row("list", list)?;
    row("fetch", || (1..=FILES).try_for_each(|number| fs::symlink_metadata(path(number)).map(drop)))?;
    row("read", || (1..=FILES).try_for_each(read))?;
    row("remove", || (1..=FILES).try_for_each(|number| fs::remove_file(path(number))))
}

fn main() -> io::Result<()> {
    fs::create_dir(FOLDER)?;
    let made = File::open(FOLDER).and_then(|directory| rows(&directory));
    fs::remove_dir_all(FOLDER)?;
    made
}
