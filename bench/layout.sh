#!/bin/sh
# Times the layout of an array, in milliseconds, and the memory of the whole program, in MiB: one disk, two blocks a file, over a
# synced table of as many files, of which one in ten is changed, one added, one moved and one deleted. It runs three times with the
# files that are given, and three times with twice as many. It builds a small program over crates/array_scan in a folder of its own,
# outside the repository, since what it prints differs from run to run.
# Usage: bench/layout.sh [files], 200,000 where nothing is given, at most 4,500,000.
# The crates below are proved first, unless the gate proved them on this machine.
set -eu
top=$(cd "$(dirname "$0")/.." && pwd)
files=${1:-200000}
scratch=$(mktemp -d)
trap 'rm -rf "$scratch"' EXIT

for crate in block_hash disk_model file_table position_alloc array_setup folder_listing array_scan; do
    mkdir -p "$scratch/crates/$crate"
    for part in src specs proofs; do
        cp -r "$top/crates/$crate/$part" "$scratch/crates/$crate/$part"
    done
done
cp "$top/HANDLES" "$scratch/HANDLES"
cat >"$scratch/crates.txt" <<'CRATES'
block_hash: md5 sha2 hex
disk_model: thiserror
file_table: block_hash disk_model thiserror
position_alloc: disk_model
array_setup: disk_model memchr
folder_listing: array_setup file_table disk_model
array_scan: file_table position_alloc folder_listing array_setup block_hash disk_model
layout_speed: array_scan folder_listing file_table array_setup block_hash disk_model
CRATES
crate=$scratch/crates/layout_speed
mkdir -p "$crate/src" "$crate/specs" "$crate/proofs/push_next" "$crate/proofs/push_range" "$crate/proofs/old_table" "$crate/proofs/main"
cat >"$crate/specs/Lib.antt" <<'SPECS'
pub mod Long
SPECS
cat >"$crate/specs/Long.antt" <<'SPECS'
-- Listings whose paths are as long as each other.
use Rattle.std.specs.Prelude.{◌≡◌, ℕ, List, length, All}
use Rattle.disk_model.specs.Tree.{IsListing}
use Rattle.disk_model.specs.declared.meta.Meta.{Meta}

abbrev pub IsLong : List ℕ × Meta → Type 0
IsLong file = length file.0 ≡ 15

pub record IsLongListing (files : List (List ℕ × Meta)) : Type 0 where
  pub listing : IsListing files
  pub long : All IsLong files
SPECS
cat >"$crate/src/main.rt" <<'PROGRAM'
//! Times the layout of an array. The number of files is the only argument; without it nothing is done.
#![tactic(auto)]

ghost use Rattle.std.specs.Prelude.{◌≡◌, ◌-◌, ◌<◌, ◌≤◌, [], length, slice_index_or, All, IfOk, OnOk, IsTrue};
ghost use Rattle.std.specs.Ordering.{nat_cmp};
ghost use Rattle.std.specs.Cmp.Lexicographic.{slice_cmp};
ghost use Rattle.std.specs.declared.cmp.Ordering.TheVariants.{Less};
ghost use Rattle.disk_model.specs.Tree.{IsListing, listed};
ghost use Rattle.file_table.specs.Table.{no_meta};
ghost use Rattle.folder_listing.specs.Kept.{lists_of};
ghost use Rattle.layout_speed.specs.Long.{IsLongListing};

use array_scan::{Plan, ScanFault, lay_out};
use block_hash::{Digest16, Kind};
use disk_model::{FileInfo, Meta, NoMemory, Path, Places, Stamp, Text};
use file_table::{BuildFault, Builder, Info, Mark, Shape, Table};
use array_setup::{Disk, Disks, Rules, Setup, SyncWay};
use folder_listing::Listing;
use std::alloc::Global;
use std::time::Instant;
use std::{env, io};

const SHAPE: Shape = Shape {
    block_size: 1024,
    levels: 1,
    kind: Kind::Md5,
    seed: [7; 16],
};

const SYNCED: Info = Info {
    mark: Mark::Synced,
    last: 5,
    bad: false,
    fresh: false,
};

const WAY: SyncWay = SyncWay {
    force_zero: false,
    force_empty: false,
    save_every: None,
};

fn path(alloc: Global, folder: &str, number: u32) -> Result<Path, NoMemory> {
    let text = format!(in alloc; "{folder}/{number:08}").map_err(|_| NoMemory)?;
    Path::new(alloc, text.as_str()).map_err(|_| NoMemory)
}

/// Whether a path has 15 bytes, and is greater than that of the last file.
fn is_next(files: &[FileInfo], path: &Path) -> bool
    ensures long { IsTrue result → length path.now ≡ 15 }
    ensures less { IsTrue result → 0 < length files.now → slice_cmp nat_cmp
        (slice_index_or files.now (length files.now - 1) (record { path = []; meta = no_meta })).path path.now ≡ Less }
{
    match files.last() {
        Some(file) => path.as_str().len() == 15 && file.path.as_str() < path.as_str(),
        None => path.as_str().len() == 15,
    }
}

/// One file more of a listing, where its path has 15 bytes and is greater than the last.
fn push_next(files: &mut Vec<FileInfo>, path: Path, number: u32, nanos: u32) -> Result<(), NoMemory>
    requires listing { IsLongListing (listed files.old.items) }
    requires nanos { nanos < 1000000000 }
    ensures { OnOk result (IsLongListing (listed files.new.items)) }
{
    if is_next(files, &path) {
        let stamp = Stamp { seconds: i64::from(number), nanos };
        files.push(FileInfo { path, meta: Meta { size: 2048, stamp } })?;
    }
    Ok(())
}

/// The files of a folder whose numbers leave one of these rests, behind those that are there.
fn push_range(
    alloc: Global,
    files: &mut Vec<FileInfo>,
    folder: &str,
    count: u32,
    moved: bool,
) -> Result<(), NoMemory>
    requires { IsLongListing (listed files.old.items) }
    ensures { OnOk result (IsLongListing (listed files.new.items)) }
{
    for number in 0..count {
        let rest = number % 10;
        if (rest == 2) == moved && rest != 3 {
            let nanos = if rest == 0 { 6 } else { 5 };
            push_next(files, path(alloc, folder, number)?, number, nanos)?;
        }
    }
    Ok(())
}

/// Of ten files one is changed, one added, one moved and one deleted.
fn new_list(alloc: Global, count: u32) -> Result<Vec<Listing>, NoMemory>
    ensures count { IfOk result (λ lists. length lists.items ≡ 1) }
    ensures order { IfOk result (λ lists. All IsListing (lists_of lists.items)) }
{
    let mut files = Vec::new(alloc);
    push_range(alloc, &mut files, "folder", count, false)?;
    push_range(alloc, &mut files, "moving", count, true)?;
    let mut lists = Vec::new(alloc);
    lists.push(Listing { files })?;
    Ok(lists)
}

fn push_old(builder: &mut Builder, alloc: Global, number: u32) -> Result<(), BuildFault>
    requires before_infos { builder.old.infos ≡ [] }
    requires column { 0 < length builder.old.columns }
    requires number { number < 10000000 }
    ensures before_infos { builder.new.infos ≡ [] }
    ensures column { 0 < length builder.new.columns }
{
    let stamp = Stamp { seconds: i64::from(number), nanos: 5 };
    let path = path(alloc, "folder", number)?;
    builder.push_record(path, Meta { size: 2048, stamp })?;
    builder.push_block(2 * number, Some(Digest16([9; 16])))?;
    builder.push_block(2 * number + 1, Some(Digest16([9; 16])))
}

fn old_table(alloc: Global, count: u32) -> Result<Table, BuildFault>
    requires { count ≤ 10000000 }
{
    let mut builder = Builder::new(alloc, SHAPE, 2 * count)?;
    builder.push_disk(Text::new(alloc, "d1")?)?;
    for number in 0..count {
        if number % 10 != 1 {
            push_old(&mut builder, alloc, number)?;
        }
    }
    for _ in 0..2 * count {
        builder.push_info(SYNCED)?;
    }
    builder.finish()
}

fn setup(alloc: Global) -> Result<Setup, NoMemory>
    ensures { IfOk result (λ setup. length setup.disks ≡ 1) }
{
    let mut disks = Vec::new(alloc);
    let name = Text::new(alloc, "d1")?;
    let dir = Text::new(alloc, "/d1")?;
    disks.push(Disk { name, dir })?;
    Ok(Setup {
        disks: Disks::new(disks),
        places: Places {
            dirs: Vec::new(alloc),
            parities: Vec::new(alloc),
            contents: Vec::new(alloc),
        },
        rules: Rules::new(Vec::new(alloc)),
        nohidden: false,
        block_size: 1024,
        autosave: 0,
        log: None,
    })
}

fn main(rt: HostRuntime) -> io::Result<()> {
    let alloc = rt.alloc();
    let mut words = env::args(&rt)?;
    let _program = words.next();
    let Some(word) = words.next() else {
        return Ok(());
    };
    let count = word.parse::<u32>().unwrap_or(0);
    if count == 0 || count > 10_000_000 {
        return Ok(());
    }
    let (Ok(old), Ok(lists), Ok(setup)) = (old_table(alloc, count), new_list(alloc, count), setup(alloc)) else {
        println!(rt; "no table")?;
        return Ok(());
    };
    if old.disks() != 1 {
        return Ok(());
    }
    let start = Instant::now(&rt)?;
    let laid = lay_out(alloc, &old, &lists, &setup, &WAY);
    let took = start.elapsed(&rt)?;
    match laid {
        Ok(plan) => println!(rt;
            "{count} numbers, {} blocks over {}: laid out in {} ms, {} stripes of {} pending",
            plan.table.total(),
            old.total(),
            took.as_millis(),
            plan.pending.len(),
            plan.table.length()
        )?,
        Err(fault) => println!(rt; "{fault:?}")?,
    }
    Ok(())
}
PROGRAM
cat >"$crate/proofs/push_next/Answers.antt" <<'PROOFS'
use Rattle.std.proofs.Common.{◌≡◌, ◌<◌, ◌-◌, List, [], length, get_or, sym, subst}
use Rattle.std.specs.Ordering.{nat_cmp}
use Rattle.std.specs.Cmp.Lexicographic.{slice_cmp}
use Rattle.std.specs.declared.cmp.Ordering.TheVariants.{Less}
use Rattle.disk_model.specs.Path.{IsValidPath}
use Rattle.disk_model.specs.Tree.{listed}
use Rattle.disk_model.specs.declared.meta.FileInfo.{FileInfo}
use Rattle.file_table.specs.Table.{no_meta}
use Rattle.layout_speed.specs.Long.{IsLongListing}
use Rattle.layout_speed.proofs.LongLemmas.{long_push}
use Rattle.layout_speed.proofs.push_next.Goals as goal

pub returns-in_ok-push : goal.returns-in_ok-push
returns-in_ok-push c =
    let greater = subst (λ (fs : List FileInfo). 0 < length fs → slice_cmp nat_cmp (get_or fs (length fs - 1) (record { path = []; meta = no_meta })).path c.args.path ≡ Less)
        c.deref.ensures.value (c.is_next.ensures.less c.if-is_next.true) in
    let valid = subst IsValidPath c.path.view_is c.path.invariant in
    subst (λ (all : List FileInfo). IsLongListing (listed all)) (sym c.in_ok-push.ensures.items)
    (long_push c.args.files.now.items _ c.requires.listing (c.is_next.ensures.long c.if-is_next.true) valid c.requires.nanos greater)
PROOFS
cat >"$crate/proofs/Lib.antt" <<'PROOFS'
pub mod LongLemmas
PROOFS
cat >"$crate/proofs/LongLemmas.antt" <<'PROOFS'
use Rattle.std.proofs.Common.{◌≡◌, ℕ, ◌+◌, ◌-◌, ◌<◌, List, [], ◌∷◌, ◌++◌, length, get_or, drop, true, false, refl, ap, sym, ◌∙◌, subst, arith, inl, inr, nat_eq, Bool}
use Rattle.std.specs.List.{starts_with}
use Rattle.std.specs.Ordering.{nat_cmp}
use Rattle.std.specs.Cmp.Lexicographic.{slice_cmp}
use Rattle.std.specs.declared.cmp.Ordering.TheVariants.{Less}
use Rattle.std.proofs.lemmas.Cmp.{nat_list_cmp_total}
use Rattle.std.proofs.lemmas.Bool.{cases_lt}
use Rattle.std.proofs.lemmas.Bool.Decides.{Decides-eqb}
use Rattle.std.proofs.lemmas.Slice.Eq.{starts_is}
use Rattle.std.proofs.lemmas.List.{length-append, length-map, get_or-map, map-append}
use Rattle.std.proofs.lemmas.List.Elements.{All-push}
use Rattle.std.proofs.lemmas.List.Quantifiers.{all_pairs_push}
use Rattle.disk_model.specs.declared.meta.Meta.{Meta}
use Rattle.disk_model.specs.Path.{IsValidPath}
use Rattle.disk_model.specs.Stamp.{IsStamp}
use Rattle.disk_model.specs.declared.meta.FileInfo.{FileInfo}
use Rattle.disk_model.specs.Tree.{IsListedBefore, IsListing, is_directory_of, listed}
use Rattle.file_table.specs.Table.{no_meta}
use Rattle.layout_speed.specs.Long.{IsLong, IsLongListing}

abbrev pub Listed : Type 0
Listed = List ℕ × Meta

apart : (directory path : List ℕ) → length path ≡ length directory → is_directory_of directory path ≡ false
apart directory path same =
    let front = starts_is Decides-eqb path (directory ++ 47 ∷ []) (starts_with nat_eq path (directory ++ 47 ∷ [])) refl in
    (elim (is_directory_of directory path) as (λ (t : Bool). is_directory_of directory path ≡ t → t ≡ false) [
      | true ↦ λ yes.
          let rest = front.0 yes in
          absurd (omega (arith, ap length rest, length-append (directory ++ 47 ∷ []) (drop (length (directory ++ 47 ∷ [])) path), length-append directory (47 ∷ []), same))
      | false ↦ λ no. refl
    ]) refl

pub long_more : (files : List Listed) (path : List ℕ) (meta : Meta) → IsLongListing files → length path ≡ 15 → IsValidPath path → IsStamp meta.stamp
    → (0 < length files → slice_cmp nat_cmp (get_or files (length files - 1) ([], no_meta)).0 path ≡ Less) → IsLongListing (files ++ (path, meta) ∷ [])
long_more files path meta so_far long valid stamp greater = record {
  listing = record {
    order = all_pairs_push (λ (a b : Listed). IsListedBefore a.0 b.0) files (path, meta) so_far.listing.order (λ k d below. record {
      less = less k d below;
      no_directory = apart (get_or files k d).0 path (long ∙ sym (so_far.long k d below));
      not_inside = apart path (get_or files k d).0 (so_far.long k d below ∙ sym long);
    });
    valid = All-push (λ (f : Listed). IsValidPath f.0) files (path, meta) so_far.listing.valid valid;
    stamps = All-push (λ (f : Listed). IsStamp f.1.stamp) files (path, meta) so_far.listing.stamps stamp;
  };
  long = All-push IsLong files (path, meta) so_far.long long;
}
  where
    less : (k : ℕ) (d : Listed) → k < length files → slice_cmp nat_cmp (get_or files k d).0 path ≡ Less
    less k d below =
        let last = Rattle.std.proofs.lemmas.List.get_or_default files (length files - 1) d ([], no_meta) (omega arith) in
        let end : slice_cmp nat_cmp (get_or files (length files - 1) d).0 path ≡ Less = subst (λ (f : Listed). slice_cmp nat_cmp f.0 path ≡ Less) (sym last) (greater (omega arith)) in
        elim (cases_lt k (length files - 1)) [
          | inl before ↦ nat_list_cmp_total.trans (get_or files k d).0 (get_or files (length files - 1) d).0 path (so_far.listing.order k (length files - 1) d before (omega arith)).less end
          | inr from ↦ let same : k ≡ length files - 1 = omega arith in subst (λ (n : ℕ). slice_cmp nat_cmp (get_or files n d).0 path ≡ Less) (sym same) end
        ]

abbrev no_file : FileInfo
no_file = record { path = []; meta = no_meta }

pub long_push : (files : List FileInfo) (file : FileInfo) → IsLongListing (listed files) → length file.path ≡ 15 → IsValidPath file.path → IsStamp file.meta.stamp
    → (0 < length files → slice_cmp nat_cmp (get_or files (length files - 1) (record { path = []; meta = no_meta })).path file.path ≡ Less) → IsLongListing (listed (files ++ file ∷ []))
long_push files file so_far long valid stamp greater =
    subst IsLongListing (sym (map-append entry files (file ∷ []))) (long_more (listed files) file.path file.meta so_far long valid stamp (λ some.
    let some_file : 0 < length files = omega (arith, some, length-map files entry) in
    let last : get_or (listed files) (length (listed files) - 1) ([], no_meta) ≡ entry (get_or files (length files - 1) no_file) =
    ap (λ (n : ℕ). get_or (listed files) (n - 1) ([], no_meta)) (length-map files entry) ∙ get_or-map entry files (length files - 1) no_file ([], no_meta) (omega (arith, some_file)) in
    subst (λ (e : Listed). slice_cmp nat_cmp e.0 file.path ≡ Less) (sym last) (greater some_file)))
  where
    entry : FileInfo → Listed
    entry f = (f.path, f.meta)
PROOFS
cat >"$crate/proofs/main/Answers.antt" <<'PROOFS'
use Rattle.std.proofs.Common.{List, All, sym, subst}
use Rattle.disk_model.specs.Tree.{IsListing}
use Rattle.folder_listing.specs.declared.listing.Listing.{Listing}
use Rattle.folder_listing.specs.Kept.{lists_of}
use Rattle.layout_speed.proofs.main.Goals as goal

pub lay_out-laid-requires-clause-order : goal.lay_out-laid-requires-clause-order
lay_out-laid-requires-clause-order c = subst (λ (lists : List Listing). All IsListing (lists_of lists)) (sym c.deref-2.ensures.value) c.in-Ok-Ok-Ok.ensures'.order
PROOFS
cat >"$crate/proofs/push_range/Invariants.antt" <<'PROOFS'
use Rattle.disk_model.specs.Tree.{listed}
use Rattle.layout_speed.specs.Long.{IsLongListing}
use Rattle.layout_speed.proofs.push_range.Given as goal

abbrev pub invariant-loop-number : goal.invariant-loop-number
invariant-loop-number l = IsLongListing (listed l.files.items)
PROOFS
cat >"$crate/proofs/old_table/Invariants.antt" <<'PROOFS'
use Rattle.std.proofs.Common.{◌≡◌, ◌<◌, [], length}
use Rattle.layout_speed.proofs.old_table.Given as goal

abbrev pub invariant-loop-number : goal.invariant-loop-number
invariant-loop-number l = record { before_infos : l.builder.infos ≡ []; column : 0 < length l.builder.columns }
PROOFS

cd "$crate"
(cd "$scratch/crates/layout_speed" && rt fmt; cd "$scratch" && rt ci) >"$scratch/log" 2>&1 || {
    cat "$scratch/log" >&2
    exit 1
}
# Of ten numbers nine are files of the table, and nine are files of the folder.
for size in "$((files / 9 * 10))" "$((2 * files / 9 * 10))"; do
    for _ in 1 2 3; do
        python3 - ./out/layout_speed "$size" <<'MEASURE'
import resource, subprocess, sys
subprocess.run(sys.argv[1:], check=True)
print(resource.getrusage(resource.RUSAGE_CHILDREN).ru_maxrss // 1024, "MiB")
MEASURE
    done
done
