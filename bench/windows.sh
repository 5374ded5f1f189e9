#!/bin/sh
# Times the reading and hashing of windows by 1, 2 and 4 readers and by one for each column, in milliseconds: so many disks in
# memory-backed storage, each with one file in blocks of 256 KiB. Each number of readers is timed so often, in turn, and the least
# time counts. It builds a small program over crates/stripe_reader and crates/disk_host in a folder of its own, outside the
# repository, since what it prints differs from run to run.
# Usage: bench/windows.sh [stripes] [rounds] [columns], 320, 5 and 6 where nothing is given; stripes are cut to a multiple of 16,
# and there are 1 to 16 columns. Four readers of six equal columns have groups of up to two, so they are at most 3 times as fast as
# one; eight columns give each of them two.
# The crates below are proved first, unless the gate proved them on this machine.
set -eu
top=$(cd "$(dirname "$0")/.." && pwd)
stripes=$((${1:-320} / 16 * 16))
rounds=${2:-5}
columns=${3:-6}
names=$(seq -s ', ' -f '"d%g"' 0 $((columns - 1)))
scratch=$(mktemp -d)
disks=$(mktemp -d /dev/shm/windows.XXXXXX)
trap 'rm -rf "$scratch" "$disks"' EXIT

for crate in block_hash md5_lanes disk_model disk_host file_table stripe_reader; do
    mkdir -p "$scratch/crates/$crate"
    for part in src specs proofs; do
        cp -r "$top/crates/$crate/$part" "$scratch/crates/$crate/$part"
    done
done
cp "$top/HANDLES" "$scratch/HANDLES"
cat >"$scratch/crates.txt" <<'CRATES'
block_hash: md5 sha2 hex
md5_lanes: block_hash md5
disk_model: thiserror
disk_host: disk_model
file_table: block_hash disk_model thiserror
stripe_reader: md5_lanes block_hash file_table disk_model
window_speed: stripe_reader block_hash file_table disk_host disk_model
CRATES
mkdir -p "$scratch/crates/window_speed/src"
cat >"$scratch/crates/window_speed/src/main.rt" <<'PROGRAM'
//! Times the reading of windows. The arguments are a folder with the disks d0, d1 and so on, the number of stripes, and the number
//! of readers; without them nothing is done.
#![tactic(auto)]

ghost use Rattle.std.specs.Prelude.{◌≡◌, ◌<◌, [], length};
ghost use Rattle.file_table.specs.Building.{last_column};

use block_hash::Kind;
use disk_host::DiskOpener;
use disk_model::{Folder, Meta, NoMemory, Opener, Path, Places, Stamp, Text};
use file_table::{BuildFault, Builder, Info, Mark, Shape, Table};
use std::alloc::Global;
use std::thread::Threads;
use std::time::Instant;
use std::{env, io};
use stripe_reader::{Found, Starts, Window, read_window};

const BLOCK: u32 = 262_144;

const COLUMNS: u32 = COUNT;

const SHAPE: Shape = Shape {
    block_size: BLOCK,
    levels: 1,
    kind: Kind::Md5,
    seed: [7; 16],
};

const PENDING: Info = Info {
    mark: Mark::Pending,
    last: 0,
    bad: false,
    fresh: false,
};

/// The blocks of the last file, one at each stripe.
fn push_blocks(builder: &mut Builder, stripes: u32) -> Result<(), BuildFault>
    requires before_infos { builder.old.infos ≡ [] }
    requires rec { 0 < length (last_column builder.old.columns).records }
    ensures before_infos { builder.new.infos ≡ [] }
{
    for position in 0..stripes {
        builder.push_block(position, None)?;
    }
    Ok(())
}

/// A disk with one file `a`.
fn push_disk(alloc: Global, builder: &mut Builder, name: Text, stripes: u32) -> Result<(), BuildFault>
    requires { builder.old.infos ≡ [] }
    ensures { builder.new.infos ≡ [] }
{
    let meta = Meta {
        size: u64::from(stripes) * u64::from(BLOCK),
        stamp: Stamp { seconds: 1, nanos: 5 },
    };
    let path = Path::new(alloc, "a").map_err(|_| BuildFault::Memory)?;
    builder.push_disk(name)?;
    builder.push_record(path, meta)?;
    push_blocks(builder, stripes)
}

fn build(alloc: Global, stripes: u32) -> Result<Table, BuildFault>
    requires { stripes < 1000000 }
{
    let mut builder = Builder::new(alloc, SHAPE, stripes)?;
    for name in [NAMES] {
        push_disk(alloc, &mut builder, Text::new(alloc, name)?, stripes)?;
    }
    for _ in 0..stripes {
        builder.push_info(PENDING)?;
    }
    builder.finish()
}

fn places(alloc: Global, folder: &str) -> Result<Places, NoMemory> {
    let mut dirs = Vec::new(alloc);
    for name in [NAMES] {
        let text = format!(in alloc; "{folder}/{name}").map_err(|_| NoMemory)?;
        dirs.push(Text::new(alloc, text.as_str())?)?;
    }
    Ok(Places {
        dirs,
        parities: Vec::new(alloc),
        contents: Vec::new(alloc),
    })
}

/// How many blocks of a window came whole.
fn whole(table: &Table, window: &Window) -> u32 {
    let mut count = 0u32;
    for i in 0..16 {
        for d in 0..COLUMNS {
            if window.fits(table)
                && i < window.count()
                && d < table.disks()
                && window.cell(i, d).found == Found::Bytes
                && window.digest(i, d).is_some()
            {
                count = count.saturating_add(1);
            }
        }
    }
    count
}

/// Reads sixteen stripes, where all fits.
fn read_sixteen<R: Threads + Sync, F: Folder>(
    rt: &R,
    folders: &mut [F],
    table: &Table,
    starts: &Starts,
    first: u32,
    readers: u32,
    window: &mut Window,
) -> u32 {
    let mut stripes = [0u32; 16];
    let mut next = first;
    for stripe in stripes.iter_mut() {
        *stripe = next;
        next = next.saturating_add(1);
    }
    if folders.len() != table.disks() as usize || !starts.fits(table) || !window.fits(table) {
        return 0;
    }
    if window.room() < 16 || !stripes.iter().all(|stripe| *stripe < table.length()) {
        return 0;
    }
    read_window(rt, folders, table, starts, &stripes, readers, window);
    whole(table, window)
}

fn read_all<R: Threads + Sync, F: Folder>(
    rt: &R,
    folders: &mut [F],
    table: &Table,
    starts: &Starts,
    readers: u32,
    window: &mut Window,
) -> u32 {
    let mut count = 0u32;
    let mut first = 0u32;
    for _ in 0..table.length() / 16 {
        count = count.saturating_add(read_sixteen(rt, folders, table, starts, first, readers, window));
        first = first.saturating_add(16);
    }
    count
}

fn main(rt: HostRuntime) -> io::Result<()> {
    let alloc = rt.alloc();
    let mut words = env::args(&rt)?;
    let _program = words.next();
    let (Some(folder), Some(stripes), Some(readers)) = (words.next(), words.next(), words.next()) else {
        return Ok(());
    };
    let stripes = stripes.parse::<u32>().unwrap_or(0);
    let readers = readers.parse::<u32>().unwrap_or(0);
    if stripes >= 1_000_000 {
        return Ok(());
    }
    let Ok(table) = build(alloc, stripes) else {
        return Ok(());
    };
    let Ok(starts) = Starts::recorded(alloc, &table) else {
        return Ok(());
    };
    let Ok(places) = places(alloc, folder.as_str()) else {
        return Ok(());
    };
    let Ok(mut opened) = DiskOpener::new(alloc, rt).open(alloc, &places) else {
        return Ok(());
    };
    let Ok(mut window) = Window::make(alloc, COLUMNS, 16, BLOCK) else {
        return Ok(());
    };
    // The first time takes the pages of the buffers.
    read_all(&rt, opened.folders.as_mut_slice(), &table, &starts, readers, &mut window);
    let start = Instant::now(&rt)?;
    let count = read_all(&rt, opened.folders.as_mut_slice(), &table, &starts, readers, &mut window);
    let read = start.elapsed(&rt)?;
    println!(rt; "{} {count}", read.as_millis())?;
    Ok(())
}
PROGRAM
sed -i "s/NAMES/$names/; s/COUNT/$columns/" "$scratch/crates/window_speed/src/main.rt"
mkdir -p "$scratch/crates/window_speed/proofs/push_blocks" "$scratch/crates/window_speed/proofs/build"
: >"$scratch/crates/window_speed/proofs/Lib.antt"
cat >"$scratch/crates/window_speed/proofs/push_blocks/Invariants.antt" <<'PROOFS'
use Rattle.std.proofs.Common.{◌≡◌, ◌<◌, [], length}
use Rattle.file_table.specs.Building.{last_column}
use Rattle.window_speed.proofs.push_blocks.Given as goal

abbrev pub invariant-loop-position : goal.invariant-loop-position
invariant-loop-position l = record { before_infos : l.builder.infos ≡ []; rec : 0 < length (last_column l.builder.columns).records }
PROOFS
cat >"$scratch/crates/window_speed/proofs/build/Invariants.antt" <<'PROOFS'
use Rattle.std.proofs.Common.{◌≡◌, []}
use Rattle.window_speed.proofs.build.Given as goal

abbrev pub invariant-loop-name : goal.invariant-loop-name
invariant-loop-name l = l.builder.infos ≡ []
PROOFS

cd "$scratch/crates/window_speed"
(cd "$scratch/crates/window_speed" && rt fmt; cd "$scratch" && rt ci) >"$scratch/log" 2>&1 || {
    cat "$scratch/log" >&2
    exit 1
}
for disk in $(seq -f 'd%g' 0 $((columns - 1))); do
    mkdir "$disks/$disk"
    dd if=/dev/urandom of="$disks/$disk/a" bs=262144 count="$stripes" status=none
done
for _ in $(seq "$rounds"); do
    for readers in 1 2 4 "$columns"; do
        echo "$readers $(./out/window_speed "$disks" "$stripes" "$readers")"
    done
done | awk -v stripes="$stripes" -v columns="$columns" '
    $3 != stripes * columns { print "read " $3 " blocks by " $1 " readers" }
    !($1 in least) || $2 < least[$1] { least[$1] = $2 }
    END {
        megabytes = stripes * columns * 262144 / 1000000
        for (readers = 1; readers <= 16; readers++)
            if (readers in least)
                printf "%d readers: %d ms, %d MB/s, %.2f times as fast as one\n", readers, least[readers], megabytes * 1000 / least[readers], least[1] / least[readers]
    }'
