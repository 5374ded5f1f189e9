#!/bin/sh
# Times how a content file is saved and loaded, in milliseconds: one disk, two blocks a file at scattered positions, each
# stripe synced, one copy in memory. It builds a small program over crates/content_file in a folder of its own, outside
# the repository, since what it prints differs from run to run.
# Usage: bench/content.sh [files], 200,000 where nothing is given, at most 10,000,000.
# The crates below are proved first, unless the gate proved them on this machine.
set -eu
top=$(cd "$(dirname "$0")/.." && pwd)
files=${1:-200000}
scratch=$(mktemp -d)
trap 'rm -rf "$scratch"' EXIT

for crate in block_hash disk_model disk_calm disk_memory file_table content_file; do
    mkdir -p "$scratch/crates/$crate"
    for part in src specs proofs; do
        cp -r "$top/crates/$crate/$part" "$scratch/crates/$crate/$part"
    done
done
grep -E '^(block_hash|disk_model|disk_calm|disk_memory|file_table|content_file):' "$top/crates.txt" >"$scratch/crates.txt"
echo 'content_speed: content_file file_table block_hash disk_model disk_memory' >>"$scratch/crates.txt"
mkdir -p "$scratch/crates/content_speed/src"
cp "$top/HANDLES" "$scratch/HANDLES"
cat >"$scratch/crates/content_speed/src/main.rt" <<'PROGRAM'
//! Times how a content file is saved and loaded. The number of files is the only argument; without it nothing is done.
#![tactic(auto)]

ghost use Rattle.std.specs.Prelude.{◌≡◌, ◌<◌, ◌≤◌, ◌*◌, [], length};

use block_hash::{Digest16, Kind};
use content_file::{load, save};
use disk_memory::MemVault;
use disk_model::{Meta, Path, Stamp, Text};
use file_table::{BuildFault, Builder, Info, Mark, Shape, Table};
use std::alloc::Global;
use std::time::Instant;
use std::{env, io};

const SHAPE: Shape = Shape {
    block_size: 1024,
    levels: 1,
    kind: Kind::Md5,
    seed: [7; 16],
};

const SYNCED: Info = Info {
    mark: Mark::Synced,
    last: 100,
    bad: false,
    fresh: true,
};

/// Where block `number` of so many stands: a prime that divides no number of blocks here scatters them.
fn scattered(number: u32, blocks: u32) -> u32
    requires { 0 < blocks }
{
    (u64::from(number) * 7919 % u64::from(blocks)) as u32
}

fn push_file(builder: &mut Builder, alloc: Global, number: u32, blocks: u32) -> Result<(), BuildFault>
    requires before_infos { builder.old.infos ≡ [] }
    requires column { 0 < length builder.old.columns }
    requires some { 0 < blocks }
    requires number { number < 10000000 }
    ensures before_infos { builder.new.infos ≡ [] }
    ensures column { 0 < length builder.new.columns }
{
    let text = format!(in alloc; "folder/{number:08}").map_err(|_| BuildFault::Memory)?;
    let path = Path::new(alloc, text.as_str()).map_err(|_| BuildFault::Memory)?;
    let stamp = Stamp { seconds: 1, nanos: 5 };
    builder.push_record(path, Meta { size: 2048, stamp })?;
    builder.push_block(scattered(2 * number, blocks), Some(Digest16([3; 16])))?;
    builder.push_block(
        scattered(2 * number + 1, blocks),
        Some(Digest16([9; 16])),
    )
}

fn build(alloc: Global, files: u32) -> Result<Table, BuildFault>
    requires some { 0 < files }
    requires few { files ≤ 10000000 }
{
    let blocks = 2 * files;
    let mut builder = Builder::new(alloc, SHAPE, blocks)?;
    builder.push_disk(Text::new(alloc, "d1")?)?;
    for number in 0..files {
        push_file(&mut builder, alloc, number, blocks)?;
    }
    for _ in 0..blocks {
        builder.push_info(SYNCED)?;
    }
    builder.finish()
}

// Saves a table through a buffer of so many bytes, and says how long it took.
fn time_save(rt: HostRuntime, vault: &mut MemVault, table: &Table, room: usize) -> io::Result<()> {
    let alloc = rt.alloc();
    let mut buffer = vec![in alloc; 0u8; room]?;
    if buffer.is_empty() {
        return Ok(());
    }
    let start = Instant::now(&rt)?;
    let saved = save(vault, table, buffer.as_mut_slice()).is_ok();
    let millis = start.elapsed(&rt)?.as_millis();
    println!(rt; "saved ({saved}) in {millis} ms")
}

// Loads the table again, and says how long it took.
fn time_load(rt: HostRuntime, vault: &mut MemVault) -> io::Result<()> {
    let alloc = rt.alloc();
    let start = Instant::now(&rt)?;
    let loaded = load(alloc, vault);
    let millis = start.elapsed(&rt)?.as_millis();
    match loaded {
        Ok(Some(table)) => println!(rt; "loaded {} blocks in {millis} ms", table.total()),
        _ => println!(rt; "loaded nothing"),
    }
}

fn main(rt: HostRuntime) -> io::Result<()> {
    let alloc = rt.alloc();
    let mut words = env::args(&rt)?;
    let _program = words.next();
    let Some(word) = words.next() else {
        return Ok(());
    };
    let files = word.parse::<u32>().unwrap_or(0);
    if files == 0 || files > 10_000_000 {
        return Ok(());
    }
    let Ok(table) = build(alloc, files) else {
        return println!(rt; "no table");
    };
    let Ok(mut vault) = MemVault::new(alloc, 1, 1) else {
        return println!(rt; "no vault");
    };
    println!(rt; "{files} files, {} blocks", table.total())?;
    time_save(rt, &mut vault, &table, 65_536)?;
    time_load(rt, &mut vault)
}
PROGRAM
mkdir -p "$scratch/crates/content_speed/proofs/build"
cat >"$scratch/crates/content_speed/proofs/Lib.antt" <<'PROOFS'
PROOFS
cat >"$scratch/crates/content_speed/proofs/build/Invariants.antt" <<'PROOFS'
use Rattle.std.proofs.Common.{◌≡◌, ◌<◌, [], length}
use Rattle.content_speed.proofs.build.Given as goal

abbrev pub invariant-loop-number : goal.invariant-loop-number
invariant-loop-number l = record { before_infos : l.builder.infos ≡ []; column : 0 < length l.builder.columns }
PROOFS

cd "$scratch/crates/content_speed"
(cd "$scratch/crates/content_speed" && rt fmt; cd "$scratch" && rt ci) >"$scratch/log" 2>&1 || {
    cat "$scratch/log" >&2
    exit 1
}
./out/content_speed "$files"
