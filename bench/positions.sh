#!/bin/sh
# Times the free positions of a column, in milliseconds: a million positions are taken, lowest first; then the lowest one is
# taken and given back as often, behind all that are taken. It builds a small program over crates/position_alloc in a folder
# of its own, outside the repository, since what it prints differs from run to run.
# Usage: bench/positions.sh [positions], 1,000,000 where nothing is given.
set -eu
top=$(cd "$(dirname "$0")/.." && pwd)
count=${1:-1000000}
scratch=$(mktemp -d)
trap 'rm -rf "$scratch"' EXIT

for crate in disk_model position_alloc; do
    mkdir -p "$scratch/crates/$crate"
    for part in src specs proofs; do
        cp -r "$top/crates/$crate/$part" "$scratch/crates/$crate/$part"
    done
done
mkdir -p "$scratch/crates/position_speed/src"
cat >"$scratch/crates.txt" <<'CRATES'
disk_model: thiserror
position_alloc: disk_model
position_speed: position_alloc disk_model
CRATES
cat >"$scratch/crates/position_speed/src/main.rt" <<'PROGRAM'
//! Times the free positions of a column. How many is the only argument; without it nothing is done.
#![tactic(auto)]

use disk_model::NoMemory;
use position_alloc::FreeList;
use std::time::Instant;
use std::{env, io};

/// Takes positions, lowest first.
fn fill(list: &mut FreeList, count: u32) -> Result<(), NoMemory> {
    for _ in 0..count {
        let p = list.first_free();
        if p < 67_108_864 {
            list.mark(p)?;
        }
    }
    Ok(())
}

/// Takes the lowest position and gives it back.
#[tactic(auto, using(std::specs::FinSet::members))]
fn churn(list: &mut FreeList, count: u32) -> Result<(), NoMemory> {
    for _ in 0..count {
        let p = list.first_free();
        if p < 67_108_864 {
            list.mark(p)?;
            list.give(p)?;
        }
    }
    Ok(())
}

fn main(rt: HostRuntime) -> io::Result<()> {
    let alloc = rt.alloc();
    let mut words = env::args(&rt)?;
    let _program = words.next();
    let Some(word) = words.next() else {
        return Ok(());
    };
    let count = word.parse::<u32>().unwrap_or(0);
    let mut list = FreeList::new(alloc);

    let start = Instant::now(&rt)?;
    let filled = fill(&mut list, count).is_ok();
    let took = start.elapsed(&rt)?;
    println!(rt; "taken {} ms, {}", took.as_millis(), filled)?;

    let start = Instant::now(&rt)?;
    let churned = churn(&mut list, count).is_ok();
    let gave = start.elapsed(&rt)?;
    println!(rt; "taken and given back {} ms, {}, lowest {}", gave.as_millis(), churned, list.first_free())?;
    Ok(())
}
PROGRAM

cd "$scratch/crates/position_speed"
rt run >"$scratch/log" 2>&1 || {
    cat "$scratch/log" >&2
    exit 1
}
./out/position_speed "$count"
