#!/bin/sh
# Times batches out of the cache: 12,000 documents of 120 words each, of twelve doublings of 65,536 words ten each, and behind each
# thousand a batch of all but the last 1,600 documents, some 29,600 words. Told are a document added, with its `reserve`, in
# nanoseconds (the mean of 1,000), and in microseconds the batch, its end, and the documents dropped, then the batch's words.
# bench/sync.sh [COMMIT ..]
# It does so for the tree as it stands, and for each commit that is named, in three turns that take one after another; it needs `rt`,
# and proves fts_sync with the test that takes the times.
top=$(CDPATH='' cd -- "$(dirname -- "$0")/.." && pwd) || exit 1
folder=$(mktemp -d) || exit 1
trap 'rm -rf "$folder"' EXIT

# The test, whose last line fails and tells the times. It stands in place of the crate's own tests, where it has some.
timed_test() {
    cat <<'TEST'
ghost use Rattle.std.specs.Prelude.{◌<◌};

use crate::batch;
use fts_cache::{Cache, DocWords};
use fts_lists::Lists;
use std::alloc::Global;
use std::process::Abort;
use std::rt::Clock;
use std::test::Fail;
use std::time::Instant;

fn put(rt: &impl Abort, cache: &mut Cache, document: DocWords, alloc: Global) -> Result<(), Fail> {
    let documents = vec![in alloc; document]?;
    assert!(rt; cache.last() < documents[0].id());
    cache.reserve(&documents)?;
    cache.add(&documents[0]);
    Ok(())
}

const ALPHABET: [u8; 26] = *b"abcdefghijklmnopqrstuvwxyz";

fn letter(place: u32) -> u8 {
    ALPHABET[(place % 26) as usize]
}

// The word of a number, by ascending numbers.
fn word(rank: u32) -> [u8; 4] {
    let n = rank.wrapping_mul(6);
    [letter(n / 17576), letter(n / 676), letter(n / 26), letter(n)]
}

const SPANS: [u32; 12] = [16, 32, 64, 128, 256, 512, 1024, 2048, 4096, 8192, 16384, 32768];

// A number that looks like chance.
fn mixed(a: u32, b: u32, c: u32) -> u32 {
    let x = a.wrapping_mul(2654435761).wrapping_add(b.wrapping_mul(2246822519)).wrapping_add(c.wrapping_mul(3266489917));
    let y = (x ^ (x / 32768)).wrapping_mul(2246822507);
    (y ^ (y / 8192)).wrapping_mul(3266489909) / 65536
}

// One of the ranks of a tenth of a doubling.
fn rank(turn: u32, span: u32, step: u32) -> u32 {
    let part = span / 10;
    let off = mixed(turn, span, step).checked_rem(part).unwrap_or(0);
    span.wrapping_add(step.wrapping_mul(part)).wrapping_add(off)
}

fn put_word(rt: &impl Abort, made: &mut DocWords, word: &[u8]) -> Result<(), Fail> {
    assert!(rt; made.can_push(word, &[7, 300]));
    made.push(word, &[7, 300])?;
    Ok(())
}

fn put_span(rt: &impl Abort, made: &mut DocWords, turn: u32, span: u32) -> Result<(), Fail> {
    for step in 0..10u32 {
        put_word(rt, made, &word(rank(turn, span, step)))?;
    }
    Ok(())
}

fn made(rt: &impl Abort, alloc: Global, turn: u32) -> Result<DocWords, Fail>
    requires { turn < 2000000 }
{
    let mut made = DocWords::new(alloc, u64::from(turn) + 1);
    for span in SPANS.iter() {
        put_span(rt, &mut made, turn, *span)?;
    }
    Ok(made)
}

fn added(rt: &(impl Abort + Clock), cache: &mut Cache, document: DocWords, alloc: Global) -> Result<u128, Fail> {
    let start = Instant::now(rt)?;
    put(rt, cache, document, alloc)?;
    Ok(start.elapsed(rt)?.as_nanos())
}

// A thousand documents more, in nanoseconds a document.
fn grown(rt: &(impl Abort + Clock), alloc: Global, cache: &mut Cache, from: u32) -> Result<u128, Fail>
    requires { from < 1000000 }
{
    let mut nanos = 0u128;
    for step in 0..1000u32 {
        let document = made(rt, alloc, from + step)?;
        nanos = nanos.wrapping_add(added(rt, cache, document, alloc)?);
    }
    Ok(nanos / 1000)
}

// The microseconds of a batch up to a document, of its drop, and its words.
fn sealed(rt: &impl Clock, alloc: Global, cache: &Cache, doc: u64) -> Result<(u128, u128, usize), Fail> {
    let lists = Lists::new(alloc);
    let start = Instant::now(rt)?;
    let nodes = batch(alloc, cache, doc, &lists)?;
    let micros = start.elapsed(rt)?.as_micros();
    let words = nodes.len();
    let start = Instant::now(rt)?;
    drop(nodes);
    Ok((micros, start.elapsed(rt)?.as_micros(), words))
}

fn dropped(rt: &impl Clock, cache: &mut Cache, doc: u64) -> Result<u128, Fail> {
    let start = Instant::now(rt)?;
    cache.drop_until(doc);
    Ok(start.elapsed(rt)?.as_micros())
}

#[test]
fn times(rt: HostRuntime) -> Result<(), Fail> {
    let alloc = rt.alloc();
    let mut cache = Cache::new(alloc);
    let mut times = Vec::new(alloc);
    for thousand in 0..12u32 {
        let nanos = grown(&rt, alloc, &mut cache, thousand * 1000)?;
        let doc = cache.last().saturating_sub(1600);
        let (batch, free, words) = sealed(&rt, alloc, &cache, doc)?;
        let drop = dropped(&rt, &mut cache, doc)?;
        times.push((nanos, batch, free, drop, words))?;
    }
    assert_eq!(rt; times.as_slice(), [(0, 0, 0, 0, 0)].as_slice());
    Ok(())
}
TEST
}

# Builds the test of the tree in this folder.
build() {
    cd "$1/crates/fts_sync" || exit 1
    grep -q '^mod tests;' src/lib.rt || printf '\n#[cfg(test)]\nmod tests;\n' >>src/lib.rt
    timed_test >src/tests.rt
    rt test 2>&1 | grep -E 'error|no proof|not proved' | head -20
}

git -C "$top" archive HEAD | (mkdir "$folder/now" && tar -x -C "$folder/now") || exit 1
for commit in "$@"; do
    git -C "$top" archive "$commit" | (mkdir "$folder/$commit" && tar -x -C "$folder/$commit") || exit 1
done
for tree in "$@" now; do
    (build "$folder/$tree")
done
for turn in 1 2 3; do
    for tree in "$@" now; do
        echo "$tree, turn $turn: (nanoseconds a document, microseconds a batch, its end, the drop, words) of each thousand:"
        "$folder/$tree/crates/fts_sync/out/fts_sync_tests" tests::times 2>&1 | grep left:
    done
done
uptime
