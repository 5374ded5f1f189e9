#!/bin/sh
# Times a memory copy, add_column and solve over blocks of 256 KiB, in milliseconds: add_column by level 0, whose
# coefficients are 1, by level 1 at column 1, which is 2, and by level 2. 1,000 rounds of add_column or of the copy go over
# 250 MiB, and of solve with six columns over 1,500 MiB. It builds a small program over crates/cauchy in a
# folder of its own, outside the repository, since what it prints differs from run to run.
# Usage: bench/parity.sh [rounds], 1,000 where nothing is given.
set -eu
top=$(cd "$(dirname "$0")/.." && pwd)
rounds=${1:-1000}
scratch=$(mktemp -d)
trap 'rm -rf "$scratch"' EXIT

for crate in gf256 cauchy; do
    mkdir -p "$scratch/crates/$crate"
    for part in src specs proofs; do
        cp -r "$top/crates/$crate/$part" "$scratch/crates/$crate/$part"
    done
done
mkdir -p "$scratch/crates/parity_speed/src"
cat >"$scratch/crates.txt" <<'CRATES'
gf256:
cauchy: gf256
parity_speed: cauchy
CRATES
cat >"$scratch/crates/parity_speed/src/main.rt" <<'PROGRAM'
//! Times the parity of blocks of 256 KiB beside a memory copy. The arguments are the number of rounds and the
//! level of add_column; without them nothing is done.
#![tactic(auto)]

use cauchy::{add_column, is_choice, solve};
use std::time::Instant;
use std::{env, io};

/// How many bytes a block has.
const BLOCK: usize = 262_144;

fn copy_rounds(rounds: u32, block: &[u8], out: &mut [u8]) {
    if block.len() == out.len() {
        for _ in 0..rounds {
            out.copy_from_slice(block);
        }
    }
}

/// Adds the block to a level, as column 1, once a round.
fn add_rounds(level: u32, rounds: u32, block: &[u8], out: &mut [u8]) {
    if block.len() == out.len() && level < 6 {
        for _ in 0..rounds {
            add_column(level, 1, block, out);
        }
    }
}

/// Recovers the first columns from as many levels, once a round.
fn solve_rounds(rounds: u32, count: usize, work: &mut [u8]) {
    let all = [0, 1, 2, 3, 4, 5];
    if count > 6 {
        return;
    }
    let chosen = &all[..count];
    if is_choice(chosen, chosen) && work.len() == count * BLOCK {
        for _ in 0..rounds {
            solve(chosen, chosen, BLOCK, work);
        }
    }
}

fn main(rt: HostRuntime) -> io::Result<()> {
    let alloc = rt.alloc();
    let mut words = env::args(&rt)?;
    let _program = words.next();
    let Some(word) = words.next() else {
        return Ok(());
    };
    let rounds = word.parse::<u32>().unwrap_or(0);
    let Some(level_word) = words.next() else {
        return Ok(());
    };
    let level = level_word.parse::<u32>().unwrap_or(0);
    let block = vec![in alloc; 0xa5u8; BLOCK]?;
    let mut out = vec![in alloc; 0x3cu8; BLOCK]?;
    let mut work = vec![in alloc; 0x96u8; 6 * BLOCK]?;

    let start = Instant::now(&rt)?;
    copy_rounds(rounds, &block, &mut out);
    let copied = start.elapsed(&rt)?;
    println!(rt; "copy {} ms", copied.as_millis())?;

    let start = Instant::now(&rt)?;
    add_rounds(level, rounds, &block, &mut out);
    let added = start.elapsed(&rt)?;
    println!(rt; "add_column, level {}: {} ms", level, added.as_millis())?;

    let start = Instant::now(&rt)?;
    solve_rounds(rounds, 6, &mut work);
    let solved = start.elapsed(&rt)?;
    println!(rt;
        "solve six columns {} ms, last bytes {} {}",
        solved.as_millis(),
        out[0],
        work[0]
    )?;
    Ok(())
}
PROGRAM

cd "$scratch/crates/parity_speed"
rt run >"$scratch/log" 2>&1 || {
    cat "$scratch/log" >&2
    exit 1
}
for level in 0 1 2; do
    ./out/parity_speed "$rounds" "$level"
done
