#!/bin/sh
# Times the cache with 10,000, 100,000 and 1,000,000 documents of 20 words each, 200,000 words in all: what one more document takes,
# with its `reserve`, in nanoseconds (the mean of 1,000), and `prefix` of two letters, which 676 words begin with, the best of five.
# bench/cache.sh [COMMIT ..]
# It does so for the tree as it stands, and for each commit that is named, one after another in one run; it needs `rt`, and
# proves fts_cache with the test that takes the times.
top=$(CDPATH='' cd -- "$(dirname -- "$0")/.." && pwd) || exit 1
folder=$(mktemp -d) || exit 1
trap 'rm -rf "$folder"' EXIT

# The test, whose last line fails and tells the times. It stands in place of the crate's own tests, where it has some.
timed_test() {
    cat <<'TEST'
ghost use Rattle.std.specs.Prelude.{◌<◌, OnOk};
ghost use Rattle.fts_cache.specs.Cache.{HasRoom};

use super::*;
use std::alloc::Global;
use std::process::Abort;
use std::rt::Clock;
use std::test::Fail;
use std::time::Instant;

fn make_room(cache: &mut Cache, documents: &[DocWords]) -> Result<(), Fail>
    ensures { OnOk result (HasRoom cache.new documents.now) }
{
    Ok(cache.reserve(documents)?)
}

fn add_all(rt: &impl Abort, cache: &mut Cache, documents: &[DocWords]) -> Result<(), Fail> {
    make_room(cache, documents)?;
    for document in documents {
        assert!(rt; cache.last() < document.id());
        cache.add(document);
    }
    Ok(())
}

const ALPHABET: [u8; 26] = *b"abcdefghijklmnopqrstuvwxyz";

fn letter(place: u32) -> u8 {
    ALPHABET[(place % 26) as usize]
}

// The word of a number, by ascending numbers.
fn word(n: u32) -> [u8; 4] {
    [letter(n / 17576), letter(n / 676), letter(n / 26), letter(n)]
}

fn made(rt: &impl Abort, alloc: Global, turn: u32) -> Result<DocWords, Fail>
    requires { turn < 2000000 }
{
    let mut made = DocWords::new(alloc, u64::from(turn) + 1);
    for step in 0..20u32 {
        let word = word(turn % 10_000 * 20 + step);
        assert!(rt; made.can_push(&word, &[7]));
        made.push(&word, &[7])?;
    }
    Ok(made)
}

fn added(rt: &(impl Abort + Clock), cache: &mut Cache, documents: &[DocWords]) -> Result<u128, Fail> {
    let start = Instant::now(rt)?;
    add_all(rt, cache, documents)?;
    Ok(start.elapsed(rt)?.as_nanos())
}

// A thousand documents more.
fn grown(rt: &(impl Abort + Clock), alloc: Global, cache: &mut Cache, from: u32) -> Result<u128, Fail>
    requires { from < 1000000 }
{
    let mut nanos = 0u128;
    for step in 0..1000u32 {
        let documents = [made(rt, alloc, from + step)?];
        nanos = nanos.wrapping_add(added(rt, cache, &documents)?);
    }
    Ok(nanos / 1000)
}

fn found(rt: &(impl Abort + Clock), cache: &Cache) -> Result<u128, Fail> {
    let start = Instant::now(rt)?;
    let words = cache.prefix(b"cd")?;
    let nanos = start.elapsed(rt)?.as_nanos();
    assert_eq!(rt; words.len(), 676);
    Ok(nanos)
}

fn best(rt: &(impl Abort + Clock), cache: &Cache) -> Result<u128, Fail> {
    let mut best = found(rt, cache)?;
    for _ in 0..4u32 {
        best = best.min(found(rt, cache)?);
    }
    Ok(best)
}

#[test]
fn times(rt: HostRuntime) -> Result<(), Fail> {
    let alloc = rt.alloc();
    let mut cache = Cache::new(alloc);
    let mut times = Vec::new(alloc);
    for thousand in 0..1000u32 {
        let nanos = grown(&rt, alloc, &mut cache, thousand * 1000)?;
        if thousand == 9 || thousand == 99 || thousand == 999 {
            times.push((nanos, best(&rt, &cache)?))?;
        }
    }
    assert_eq!(rt; times.as_slice(), [(0, 0)].as_slice());
    Ok(())
}
TEST
}

# Times the tree in this folder.
run() {
    cd "$1/crates/fts_cache" || exit 1
    grep -q '^mod tests;' src/lib.rt || printf '\n#[cfg(test)]\nmod tests;\n' >>src/lib.rt
    timed_test >src/tests.rt
    rt test 2>&1 | grep -E 'error|no proof|not proved' | head -20
    ./out/fts_cache_tests tests::times 2>&1 | grep left
}

git -C "$top" archive HEAD | (mkdir "$folder/now" && tar -x -C "$folder/now") || exit 1
for commit in "$@"; do
    git -C "$top" archive "$commit" | (mkdir "$folder/$commit" && tar -x -C "$folder/$commit") || exit 1
    echo "$commit: nanoseconds a document and a prefix, at each number of documents:"
    (run "$folder/$commit")
done
echo "now: nanoseconds a document and a prefix, at each number of documents:"
(run "$folder/now")
uptime
