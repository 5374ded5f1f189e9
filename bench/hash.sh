#!/bin/sh
# Prints the speed of the block hash over blocks of 256 KiB, one by one and by MD5 eight at once, in MB/s (10^6 bytes) on
# one core, beside what openssl does with as many bytes on the same machine. It builds a small program over
# crates/block_hash and crates/md5_lanes in a folder of its own, outside the repository, since what it prints differs
# from run to run.
set -eu
top=$(cd "$(dirname "$0")/.." && pwd)
scratch=$(mktemp -d)
trap 'rm -rf "$scratch"' EXIT

for crate in block_hash md5_lanes; do
    mkdir -p "$scratch/crates/$crate"
    for part in src specs proofs; do
        cp -r "$top/crates/$crate/$part" "$scratch/crates/$crate/$part"
    done
done
mkdir -p "$scratch/crates/hash_bench/src"
cat >"$scratch/crates.txt" <<'CRATES'
block_hash: md5 sha2 hex
md5_lanes: block_hash md5
hash_bench: md5_lanes block_hash
CRATES
cat >"$scratch/crates/hash_bench/src/main.rt" <<'PROGRAM'
//! Times the block hash: each digest is the next one's seed, so that no call can be left out.
#![tactic(auto)]

ghost use Rattle.std.specs.Prelude.{◌≡◌, ◌≤◌, ◌+◌, ◌*◌, All, length};

use block_hash::{Digest16, Kind, digest};
use md5_lanes::digest_eight;
use std::io;
use std::time::Instant;

const BLOCK_BYTES: usize = 262_144;
const BLOCKS: u64 = 1_600;
const RUNS: usize = 5;

// Hashes the block again and again, and gives the last digest.
fn chained(kind: Kind, block: &[u8; BLOCK_BYTES]) -> Digest16 {
    let mut last = Digest16([0; 16]);
    for _ in 0..BLOCKS {
        last = digest(kind, &last.0, block);
    }
    last
}

// Eight blocks, one behind the other.
fn eight(all: &[u8], size: usize) -> [&[u8]; 8]
    requires { (size ≤ 262144) × (8 * size ≤ length all.now) }
    ensures { All (λ block. length block.now ≡ size) result }
{
    [
        &all[..size],
        &all[size..2 * size],
        &all[2 * size..3 * size],
        &all[3 * size..4 * size],
        &all[4 * size..5 * size],
        &all[5 * size..6 * size],
        &all[6 * size..7 * size],
        &all[7 * size..8 * size],
    ]
}

// Hashes eight blocks again and again, so often as one block is hashed, and gives the last digest.
fn chained_eight(blocks: &[&[u8]; 8], size: usize) -> Digest16
    requires { All (λ block. length block.now ≡ size) blocks.now × (size ≤ 262144) }
{
    let mut last = Digest16([0; 16]);
    for _ in 0..BLOCKS / 8 {
        last = digest_eight(&last.0, blocks)[7];
    }
    last
}

fn main(rt: HostRuntime) -> io::Result<()> {
    let all = vec![in rt.alloc(); 7u8; 8 * BLOCK_BYTES]?;
    let all = all.as_slice();
    if all.len() < 8 * BLOCK_BYTES {
        return Ok(());
    }
    let blocks = eight(all, BLOCK_BYTES);
    for _ in 0..RUNS {
        let start = Instant::now(&rt)?;
        let last = chained_eight(&blocks, BLOCK_BYTES);
        let micros = start.elapsed(&rt)?.as_micros().max(1);
        let speed = u128::from(BLOCKS) * BLOCK_BYTES as u128 / micros;
        println!(rt; "digest_eight  {speed:>5} MB/s   last {last}")?;
    }
    let block = [7; BLOCK_BYTES];
    for (name, kind) in [("md5", Kind::Md5), ("sha256", Kind::Sha256)] {
        for _ in 0..RUNS {
            let start = Instant::now(&rt)?;
            let last = chained(kind, &block);
            let micros = start.elapsed(&rt)?.as_micros().max(1);
            let speed = u128::from(BLOCKS) * BLOCK_BYTES as u128 / micros;
            println!(rt; "digest {name:<6} {speed:>5} MB/s   last {last}")?;
        }
    }
    Ok(())
}
PROGRAM

(cd "$scratch/crates/hash_bench" && rt run 2>"$scratch/log") || {
    cat "$scratch/log" >&2
    exit 1
}

# A digest covers the 16 bytes of the seed and the block.
for kind in md5 sha256; do
    openssl speed -elapsed -seconds 3 -bytes 262160 -evp "$kind" 2>/dev/null | tail -1 |
        awk -v kind="$kind" '{ sub("k", "", $2); printf "openssl %-6s %5d MB/s\n", kind, $2 / 1000 }'
done
