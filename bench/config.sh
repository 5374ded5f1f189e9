#!/bin/sh
# Prints how long it takes to read a configuration of 1 MiB with 251 data disks and 20,000 rules, and to say of
# 200,000 paths which of them 20 rules keep, each in microseconds. It builds a small program over crates/snap_config in
# a folder of its own, outside the repository, since what it prints differs from run to run.
set -eu
top=$(cd "$(dirname "$0")/.." && pwd)
scratch=$(mktemp -d)
trap 'rm -rf "$scratch"' EXIT

for crate in disk_model array_setup snap_config; do
    mkdir -p "$scratch/crates/$crate"
    for part in src specs proofs; do
        cp -r "$top/crates/$crate/$part" "$scratch/crates/$crate/$part"
    done
done
mkdir -p "$scratch/crates/config_bench/src"
grep -E '^(disk_model|array_setup|snap_config):' "$top/crates.txt" >"$scratch/crates.txt"
echo 'config_bench: snap_config array_setup disk_model anyhow' >>"$scratch/crates.txt"
cat >"$scratch/crates/config_bench/src/main.rt" <<'PROGRAM'
//! Times the reading of a large configuration, and of the files that a usual one keeps.
#![tactic(auto)]

use anyhow::{Context, Result, ensure};
use disk_model::Path;
use array_setup::{Setup, keeps};
use snap_config::read_config;
use std::alloc::Global;
use std::time::Instant;

const RUNS: usize = 5;
const LONGEST: usize = 1_048_576;
const DISKS: u32 = 251;
const RULES: u32 = 20_000;
const PATHS: u32 = 200_000;

const FRONT: &str = "parity /mnt/parity/snapraid.parity\ncontent /var/snapraid/snapraid.content\n";

const USUAL: &str = "data d1 /mnt/disk1/\nexclude *.tmp\nexclude *.bak\nexclude *~\nexclude Thumbs.db\nexclude .DS_Store\nexclude /lost+found/\nexclude /tmp/\nexclude cache/\nexclude .git/\nexclude *.o\nexclude core.*\nexclude /var/log/*.log\nexclude *.part\nexclude desktop.ini\nexclude $RECYCLE.BIN/\nexclude *.swp\nexclude build*/\nexclude /home/*/Downloads/\nexclude ?.txt\nexclude *.iso\n";

// A configuration of the greatest length, filled up by a comment.
fn large(alloc: Global) -> Result<String> {
    let mut text = String::from_str(alloc, FRONT)?;
    for disk in 0..DISKS {
        write!(text, "data d{disk} /mnt/disk{disk}/\n")?;
    }
    for rule in 0..RULES {
        write!(text, "exclude /folder{rule}/*.extension{rule}\n")?;
    }
    text.push_str("#")?;
    for _ in text.len()..LONGEST {
        text.push('.')?;
    }
    Ok(text)
}

fn paths(alloc: Global) -> Result<Vec<Path>> {
    let mut paths = Vec::new(alloc);
    for number in 0..PATHS {
        let (folder, part, kind) = (number % 97, number % 13, number % 7);
        let text = format!(in alloc; "folder{folder}/part{part}/picture-{number}.ext{kind}")?;
        paths.push(Path::new(alloc, text.as_str())?)?;
    }
    Ok(paths)
}

fn usual(alloc: Global) -> Result<Setup> {
    let mut text = String::from_str(alloc, FRONT)?;
    text.push_str(USUAL)?;
    read_config(alloc, text.as_bytes(), None).ok().context("refused")
}

fn kept(setup: &Setup, paths: &[Path]) -> Option<usize> {
    if setup.disks.as_slice().is_empty() {
        return None;
    }
    Some(paths.iter().filter(|path| keeps(setup, 0, path)).count())
}

fn main(rt: HostRuntime) -> Result<()> {
    let text = large(rt.alloc())?;
    let paths = paths(rt.alloc())?;
    let setup = usual(rt.alloc())?;
    for _ in 0..RUNS {
        let start = Instant::now(&rt)?;
        let read = read_config(rt.alloc(), text.as_bytes(), None).ok().context("refused")?;
        let micros = start.elapsed(&rt)?.as_micros();
        let rules = read.rules.as_slice().len();
        println!(rt; "read {} bytes, {rules} rules: {micros} us", text.len())?;
        let start = Instant::now(&rt)?;
        let count = kept(&setup, paths.as_slice()).context("no disk")?;
        let micros = start.elapsed(&rt)?.as_micros();
        println!(rt; "kept {count} of {} paths: {micros} us", paths.len())?;
        ensure!(count <= paths.len(), "too many");
    }
    Ok(())
}
PROGRAM

(cd "$scratch/crates/config_bench" && rt run 2>"$scratch/log") || {
    tail -40 "$scratch/log" >&2
    exit 1
}
