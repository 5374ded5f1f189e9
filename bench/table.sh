#!/bin/sh
# Times the building of a table and look-ups in it, in milliseconds: one disk, two blocks a file at scattered positions,
# and a look-up of each stripe in that scattered order. It runs three times with the files that are given, and three times
# with twice as many. It builds a small program over crates/file_table in a folder of its own, outside the repository,
# since what it prints differs from run to run.
# Usage: bench/table.sh [files], 200,000 where nothing is given, at most 5,000,000.
set -eu
top=$(cd "$(dirname "$0")/.." && pwd)
files=${1:-200000}
scratch=$(mktemp -d)
trap 'rm -rf "$scratch"' EXIT

for crate in block_hash disk_model file_table; do
    mkdir -p "$scratch/crates/$crate"
    for part in src specs proofs; do
        cp -r "$top/crates/$crate/$part" "$scratch/crates/$crate/$part"
    done
done
cat >"$scratch/crates.txt" <<'CRATES'
block_hash: md5 sha2 hex
disk_model: thiserror
file_table: block_hash disk_model thiserror
table_speed: file_table block_hash disk_model
CRATES
mkdir -p "$scratch/crates/table_speed/src"
cat >"$scratch/crates/table_speed/src/main.rt" <<'PROGRAM'
//! Times the building of a table and look-ups in it. The number of files is the only argument; without it nothing is
//! done.
#![tactic(auto)]

ghost use Rattle.std.specs.Prelude.{◌≡◌, ◌<◌, ◌≤◌, ◌*◌, [], length};

use block_hash::Kind;
use disk_model::{Meta, Path, Stamp, Text};
use file_table::{BuildFault, Builder, Info, Mark, Shape, Table};
use std::alloc::Global;
use std::time::Instant;
use std::{env, io};

const SHAPE: Shape = Shape {
    block_size: 1024,
    levels: 1,
    kind: Kind::Md5,
    seed: [7; 16],
};

const PENDING: Info = Info {
    mark: Mark::Pending,
    last: 0,
    bad: false,
    fresh: false,
};

/// Where block `number` of so many stands: a prime that divides no number of blocks here scatters them.
fn scattered(number: u32, blocks: u32) -> u32
    requires { 0 < blocks }
    ensures { result < blocks }
{
    (u64::from(number) * 7919 % u64::from(blocks)) as u32
}

fn push_file(builder: &mut Builder, alloc: Global, number: u32, blocks: u32) -> Result<(), BuildFault>
    requires before_infos { builder.old.infos ≡ [] }
    requires column { 0 < length builder.old.columns }
    requires some { 0 < blocks }
    requires number { number < 10000000 }
    ensures before_infos { builder.new.infos ≡ [] }
    ensures column { 0 < length builder.new.columns }
{
    let text = format!(in alloc; "folder/{number:08}").map_err(|_| BuildFault::Memory)?;
    let path = Path::new(alloc, text.as_str()).map_err(|_| BuildFault::Memory)?;
    let stamp = Stamp { seconds: 1, nanos: 5 };
    builder.push_record(path, Meta { size: 2048, stamp })?;
    builder.push_block(scattered(2 * number, blocks), None)?;
    builder.push_block(scattered(2 * number + 1, blocks), None)
}

fn build(alloc: Global, files: u32) -> Result<Table, BuildFault>
    requires some { 0 < files }
    requires few { files ≤ 10000000 }
{
    let blocks = 2 * files;
    let mut builder = Builder::new(alloc, SHAPE, blocks)?;
    builder.push_disk(Text::new(alloc, "d1")?)?;
    for number in 0..files {
        push_file(&mut builder, alloc, number, blocks)?;
    }
    for _ in 0..blocks {
        builder.push_info(PENDING)?;
    }
    builder.finish()
}

fn found(table: &Table) -> u32 {
    let blocks = table.length();
    let mut count = 0;
    if table.disks() == 0 || blocks == 0 {
        return count;
    }
    for number in 0..blocks {
        if table.cell(scattered(number, blocks), 0).is_some() {
            count = number;
        }
    }
    count
}

fn main(rt: HostRuntime) -> io::Result<()> {
    let alloc = rt.alloc();
    let mut words = env::args(&rt)?;
    let _program = words.next();
    let Some(word) = words.next() else {
        return Ok(());
    };
    let files = word.parse::<u32>().unwrap_or(0);
    if files == 0 || files > 10_000_000 {
        return Ok(());
    }
    let start = Instant::now(&rt)?;
    let Ok(table) = build(alloc, files) else {
        println!(rt; "no table")?;
        return Ok(());
    };
    let built = start.elapsed(&rt)?;
    let start = Instant::now(&rt)?;
    let last = found(&table);
    let looked = start.elapsed(&rt)?;
    println!(rt;
        "{files} files, {} blocks: built in {} ms, {} look-ups in {} ms, the last that found a cell was number {last}",
        table.total(),
        built.as_millis(),
        table.length(),
        looked.as_millis()
    )?;
    Ok(())
}
PROGRAM
mkdir -p "$scratch/crates/table_speed/proofs/build"
cat >"$scratch/crates/table_speed/proofs/Lib.antt" <<'PROOFS'
PROOFS
cat >"$scratch/crates/table_speed/proofs/build/Invariants.antt" <<'PROOFS'
use Rattle.std.proofs.Common.{◌≡◌, ◌<◌, [], length}
use Rattle.table_speed.proofs.build.Given as goal

abbrev pub invariant-loop-number : goal.invariant-loop-number
invariant-loop-number l = record { before_infos : l.builder.infos ≡ []; column : 0 < length l.builder.columns }
PROOFS

cd "$scratch/crates/table_speed"
rt run >"$scratch/log" 2>&1 || {
    cat "$scratch/log" >&2
    exit 1
}
for size in "$files" "$((2 * files))"; do
    for _ in 1 2 3; do
        ./out/table_speed "$size"
    done
done
