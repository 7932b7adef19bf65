#!/bin/sh
# Times the rows of a table, with one text of 31 bytes each and keys out of order, at 10,000, 100,000 and 1,000,000 of them: a
# commit of one row, a look-up by key, one by id and the removal of a row, in nanoseconds, the mean of 1,000; and the process's
# memory at most, in bytes a row of the million. bench/rows.sh [COMMIT ..]
# It does so for the last commit of the tree, and for each commit that is named: it builds all first, and then times them in three
# turns, one after another in each. It tells next to nothing for a removal where there is none; it needs `rt` and `python3`, and proves
# fts_rows with the test that takes the times.
# With valgrind it counts the instructions of a look-up by key, one by id and a removal too, at 10,000 and at 1,000,000 rows, each from
# the difference of two runs of 1,000 steps more; with COUNT=only it takes no times.
top=$(CDPATH='' cd -- "$(dirname -- "$0")/.." && pwd) || exit 1
folder=$(mktemp -d) || exit 1
trap 'rm -rf "$folder"' EXIT

# The parts of the test that differ: how a change holds its texts ($texts, of the type $held), and what earlier trees ask of
# changes ($plain, $given, $made and $asked), which had INSERTs alone.
choose_parts() {
    held=RowTexts texts=texts plain='' given='' made='' asked=''
    if [ -f "$1/crates/fts_types/src/shared.rt" ]; then
        held=SharedTexts texts='Held::new(alloc, texts)?'
    fi
    if grep -q IsPlainInsert "$1/crates/fts_rows/src/planning.rt"; then
        plain='ghost use Rattle.fts_commits.specs.Fits.{IsPlainInsert};'
        given='ensures { IsPlainInsert result }'
        made='ensures { IfOk result (λ changes. All IsPlainInsert changes.items) }'
        asked='requires inserts { All IsPlainInsert changes.now }'
    fi
}

# The test, whose last line fails and tells the times. It stands in place of the crate's own tests, where it has
# some. $1 takes a row out.
timed_test() {
    cat <<TEST
ghost use Rattle.std.specs.Prelude.{◌<◌, All, IfOk};
$plain

use super::*;
use fts_commits::Change;
use fts_types::{Key, Limits, RowTexts};
use fts_types::$held as Held;
use std::alloc::{AllocError, Global};
use std::process::Abort;
use std::rt::Clock;
use std::test::Fail;
use std::time::Instant;

fn key(turn: u64) -> Key {
    turn.wrapping_mul(611_953) % 1_000_003
}

// The place of a step among so many, out of order.
fn spread(step: u64, count: u64) -> u64
    requires { 0 < count }
{
    step.wrapping_mul(7_919_777) % count
}

fn insert(key: Key, texts: Held) -> Change
    $given
{
    let doc = None;
    Change::Insert { key, doc, texts }
}

fn inserts(alloc: Global, keys: &[Key]) -> Result<Vec<Change>, AllocError>
    $made
{
    let mut changes = Vec::new(alloc);
    for key in keys {
        let mut texts = RowTexts::new(alloc);
        texts.push(vec![in alloc; b'a'; 31]?)?;
        changes.push(insert(*key, $texts))?;
    }
    Ok(changes)
}

fn commit(rows: &mut Rows, changes: &[Change]) -> Result<(), PlanError>
    $asked
{
    let plan = rows.plan(changes)?;
    rows.install(plan);
    Ok(())
}

fn since<R: Clock>(rt: &R, start: Instant) -> Result<u128, Fail> {
    Ok(start.elapsed(rt)?.as_nanos())
}

fn committed(rt: &(impl Abort + Clock), alloc: Global, rows: &mut Rows, turn: u64) -> Result<u128, Fail> {
    let changes = inserts(alloc, &[key(turn)])?;
    let start = Instant::now(rt)?;
    let done = commit(rows, &changes);
    let nanos = since(rt, start)?;
    assert!(rt; done.is_ok());
    Ok(nanos)
}

// A thousand rows more.
fn grown(rt: &(impl Abort + Clock), alloc: Global, rows: &mut Rows, thousand: u64) -> Result<u128, Fail> {
    let mut nanos = 0u128;
    for step in 0..1000u64 {
        let turn = thousand.wrapping_mul(1000).wrapping_add(step);
        nanos = nanos.wrapping_add(committed(rt, alloc, rows, turn)?);
    }
    Ok(nanos / 1000)
}

fn by_key(rt: &(impl Abort + Clock), rows: &Rows, count: u64) -> Result<u128, Fail>
    requires { 0 < count }
{
    let mut found = 0u64;
    let start = Instant::now(rt)?;
    for step in 0..1000u64 {
        if rows.row(key(spread(step, count))).is_some() {
            found = found.wrapping_add(1);
        }
    }
    let nanos = since(rt, start)?;
    assert!(rt; found > 800);
    Ok(nanos / 1000)
}

fn by_id(rt: &(impl Abort + Clock), rows: &Rows, count: u64) -> Result<u128, Fail>
    requires { 0 < count }
{
    let mut found = 0u64;
    let start = Instant::now(rt)?;
    for step in 0..1000u64 {
        if rows.text_of(spread(step, count).wrapping_add(1)).is_some() {
            found = found.wrapping_add(1);
        }
    }
    let nanos = since(rt, start)?;
    assert!(rt; found > 800);
    Ok(nanos / 1000)
}

fn removed(rt: &(impl Abort + Clock), rows: &mut Rows, count: u64) -> Result<u128, Fail>
    requires { 0 < count }
{
    let mut nanos = 0u128;
    for step in 0..1000u64 {
        let key = key(spread(step.wrapping_add(5000), count));
        let start = Instant::now(rt)?;
        $1
        nanos = nanos.wrapping_add(since(rt, start)?);
    }
    Ok(nanos / 1000)
}

// A thousand removals, without the clock.
fn taken_out(rows: &mut Rows, count: u64)
    requires { 0 < count }
{
    for step in 0..1000u64 {
        let key = key(spread(step.wrapping_add(5000), count));
        $1
    }
}

// A table of so many thousand rows.
fn table(rt: &(impl Abort + Clock), alloc: Global, thousands: u64) -> Result<Rows, Fail> {
    let mut rows = Rows::new(alloc, Limits::standard());
    for thousand in 0..thousands {
        grown(rt, alloc, &mut rows, thousand)?;
    }
    Ok(rows)
}

#[test]
fn small_grown(rt: HostRuntime) -> Result<(), Fail> {
    let rows = table(&rt, rt.alloc(), 10)?;
    assert!(rt; rows.len() == 10_000);
    Ok(())
}

#[test]
fn small_keys(rt: HostRuntime) -> Result<(), Fail> {
    let rows = table(&rt, rt.alloc(), 10)?;
    by_key(&rt, &rows, 10_000)?;
    Ok(())
}

#[test]
fn small_ids(rt: HostRuntime) -> Result<(), Fail> {
    let rows = table(&rt, rt.alloc(), 10)?;
    by_id(&rt, &rows, 10_000)?;
    Ok(())
}

#[test]
fn small_removals(rt: HostRuntime) -> Result<(), Fail> {
    let mut rows = table(&rt, rt.alloc(), 10)?;
    taken_out(&mut rows, 10_000);
    Ok(())
}

#[test]
fn large_grown(rt: HostRuntime) -> Result<(), Fail> {
    let rows = table(&rt, rt.alloc(), 1000)?;
    assert!(rt; rows.len() == 1_000_000);
    Ok(())
}

#[test]
fn large_keys(rt: HostRuntime) -> Result<(), Fail> {
    let rows = table(&rt, rt.alloc(), 1000)?;
    by_key(&rt, &rows, 1_000_000)?;
    Ok(())
}

#[test]
fn large_ids(rt: HostRuntime) -> Result<(), Fail> {
    let rows = table(&rt, rt.alloc(), 1000)?;
    by_id(&rt, &rows, 1_000_000)?;
    Ok(())
}

#[test]
fn large_removals(rt: HostRuntime) -> Result<(), Fail> {
    let mut rows = table(&rt, rt.alloc(), 1000)?;
    taken_out(&mut rows, 1_000_000);
    Ok(())
}

fn times_at(
    rt: &(impl Abort + Clock),
    rows: &mut Rows,
    count: u64,
    commit: u128,
) -> Result<(u128, u128, u128, u128), Fail>
    requires { 0 < count }
{
    let key = by_key(rt, rows, count)?;
    let id = by_id(rt, rows, count)?;
    let removal = removed(rt, rows, count)?;
    Ok((commit, key, id, removal))
}

#[test]
fn times(rt: HostRuntime) -> Result<(), Fail> {
    let alloc = rt.alloc();
    let mut rows = Rows::new(alloc, Limits::standard());
    let mut times = Vec::new(alloc);
    for thousand in 0..1000u64 {
        let nanos = grown(&rt, alloc, &mut rows, thousand)?;
        if thousand == 9 {
            times.push(times_at(&rt, &mut rows, 10_000, nanos)?)?;
        }
        if thousand == 99 {
            times.push(times_at(&rt, &mut rows, 100_000, nanos)?)?;
        }
        if thousand == 999 {
            times.push(times_at(&rt, &mut rows, 1_000_000, nanos)?)?;
        }
    }
    assert_eq!(rt; times.as_slice(), [(0, 0, 0, 0)].as_slice());
    Ok(())
}
TEST
}

# Runs a command, and tells the most memory that it held, in bytes a row.
measured() {
    python3 -c 'import resource, subprocess, sys
subprocess.run(sys.argv[1:])
print(resource.getrusage(resource.RUSAGE_CHILDREN).ru_maxrss * 1024 // 1000000, "bytes a row")' "$@"
}

# Builds the test in the tree of this folder.
build() {
    cd "$1/crates/fts_rows" || exit 1
    choose_parts "$1"
    grep -q '^mod tests;' src/lib.rt || printf '\n#[cfg(test)]\nmod tests;\n' >>src/lib.rt
    if grep -q 'pub fn remove(' src/rows.rt; then
        timed_test 'let _row = rows.remove(key);' >src/tests.rt
    else
        timed_test 'let _key = key;' >src/tests.rt
    fi
    rt test 2>&1 | grep -E 'error|no proof|not proved' | head -20
}

# The instructions of one test.
counted() {
    valgrind --tool=callgrind --callgrind-out-file=/dev/null ./out/fts_rows_tests "tests::$1" 2>&1 |
        sed -n 's/.*Collected : \([0-9]*\).*/\1/p'
}

# The instructions of a look-up by key, of one by id, and of a removal.
count_all() {
    for size in small large; do
        grown=$(counted "${size}_grown")
        line=$size
        for kind in keys ids removals; do
            line="$line $kind $((($(counted "${size}_$kind") - grown) / 1000))"
        done
        echo "$line"
    done
}

for commit in HEAD "$@"; do
    git -C "$top" archive "$commit" | (mkdir "$folder/$commit" && tar -x -C "$folder/$commit") || exit 1
    (build "$folder/$commit")
done
if command -v valgrind >/dev/null; then
    for commit in HEAD "$@"; do
        echo "$commit, instructions at 10,000 rows (small) and at 1,000,000 (large):"
        (cd "$folder/$commit/crates/fts_rows" && count_all)
    done
fi
[ "${COUNT-}" = only ] && exit
echo "nanoseconds a commit, by key, by id and a removal, at each number of rows:"
for turn in 1 2 3; do
    for commit in HEAD "$@"; do
        echo "$commit, turn $turn:"
        (cd "$folder/$commit/crates/fts_rows" &&
            measured ./out/fts_rows_tests tests::times 2>&1 | grep -E 'left|bytes a row')
    done
    uptime
done
