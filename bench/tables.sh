#!/bin/sh
# Times 30 batches of 29,000 words each into the auxiliary tables, a word with one node of five documents in a batch, as 1,000
# mails have them: `reserve`, and `install_batch`, with the drop of the batch where it takes it. bench/tables.sh [COMMIT ..]
# BATCHES=1000 bench/tables.sh makes 1,000 batches. Beside the mean of all it tells those of the ten batches up to the 10th, the
# 100th and the 1,000th; 1,000 take some 5 GB of memory.
# It does so for the tree as it stands, and for each commit that is named, in five turns (TURNS) that take one after another; it needs
# `rt`, and proves fts_aux with the test that takes the times. A batch is installed in seven parts, by ascending words.
top=$(CDPATH='' cd -- "$(dirname -- "$0")/.." && pwd) || exit 1
batches=${BATCHES:-30}
turns=${TURNS:-5}
folder=$(mktemp -d) || exit 1
trap 'rm -rf "$folder"' EXIT

# What stands before the test, in place of the crate's own tests, which would be proved again.
head_of_test() {
    cat <<'TEST'
ghost use Rattle.std.specs.Prelude.{◌<◌};
ghost use Rattle.std.specs.List.Sorted.{IsStrictlySortedBy};
ghost use Rattle.std.specs.Map.{keys_of};
ghost use Rattle.fts_words.specs.Order.{byte_order};
ghost use Rattle.fts_aux.specs.Tables.{ComesAfter};

mod checks;

use super::*;
use checks::{ascend, come_after};
use fts_ilist::{Ilist, Node, NodeGroup, Nodes, WordNodes};
use fts_types::Word;
use std::alloc::Global;
use std::process::Abort;
use std::test::Fail;
TEST
}

# The test, whose last line fails and tells the times. $1 is how an install takes its batch, $3 the number of batches, and $2 one
# more.
timed_test() {
    cat <<TEST
use std::rt::Clock;
use std::time::Instant;

const LETTERS: [u8; 26] = *b"abcdefghijklmnopqrstuvwxyz";

fn letter(place: u32) -> u8 {
    LETTERS[(place % 26) as usize]
}

// The word of a place, by ascending words.
fn word(alloc: Global, place: u32) -> Result<Word, Fail>
    requires { place < 50000 }
{
    let n = place * 9;
    let bytes = vec![in alloc; letter(n / 17576), letter(n / 676), letter(n / 26), letter(n)]?;
    Ok(Word::from_vec(bytes))
}

fn five(alloc: Global, turn: u32) -> Result<Node<'static>, Fail>
    requires { turn < 1001 }
{
    let mut list = Ilist::new(alloc);
    list.push(u64::from(turn) * 10 + 1, &[7, 300])?;
    list.push(u64::from(turn) * 10 + 2, &[7, 300])?;
    list.push(u64::from(turn) * 10 + 3, &[7, 300])?;
    list.push(u64::from(turn) * 10 + 4, &[7, 300])?;
    list.push(u64::from(turn) * 10 + 5, &[7, 300])?;
    Ok(Node::new(list))
}

fn group(alloc: Global, turn: u32, place: u32) -> Result<WordNodes<'static>, Fail>
    requires turn { turn < 1001 }
    requires place { place < 50000 }
{
    let mut nodes = NodeGroup::new(alloc);
    nodes.push(alloc, five(alloc, turn)?)?;
    Ok(WordNodes::new(word(alloc, place)?, nodes))
}

fn part(alloc: Global, turn: u32, part: u32) -> Result<Nodes<'static>, Fail>
    requires turn { turn < 1001 }
    requires part { part < 7 }
{
    let mut batch = Vec::new(alloc);
    for step in 0..7142u32 {
        let place = part * 7142 + step;
        if (place * 61 + turn * 37) % 100 < 58 {
            batch.push(group(alloc, turn, place)?)?;
        }
    }
    Ok(batch)
}

fn since<R: Clock>(rt: &R, start: Instant) -> Result<u128, Fail> {
    Ok(start.elapsed(rt)?.as_nanos())
}

// Room for a batch, and its install. Nothing is done between them.
fn brought(rt: &impl Clock, tables: &mut Tables, batch: Nodes) -> Result<(u128, u128), Fail>
    requires words { IsStrictlySortedBy byte_order (keys_of batch.items) }
    requires after { ComesAfter tables.old batch.items }
{
    let start = Instant::now(rt)?;
    tables.reserve(&batch)?;
    let reserve = since(rt, start)?;
    let start = Instant::now(rt)?;
    tables.install_batch($1batch);
    Ok((reserve, since(rt, start)?))
}

// What an install asks of the batch is looked at before its room is made, since that look reads all nodes.
fn timed(rt: &(impl Abort + Clock), tables: &mut Tables, batch: Nodes) -> Result<(u128, u128), Fail> {
    assert!(rt; ascend(&batch));
    assert!(rt; come_after(tables, &batch));
    brought(rt, tables, batch)
}

fn turn(rt: &(impl Abort + Clock), alloc: Global, tables: &mut Tables, turn: u32) -> Result<(u128, u128), Fail>
    requires { turn < 1001 }
{
    let mut reserve = 0u128;
    let mut install = 0u128;
    for place in 0..7u32 {
        let spent = timed(rt, tables, part(alloc, turn, place)?)?;
        reserve = reserve.wrapping_add(spent.0);
        install = install.wrapping_add(spent.1);
    }
    Ok((reserve, install))
}

// The times of some batches, in nanoseconds: to make their room, and to install them.
#[derive(Clone, Copy)]
struct Spent {
    reserve: u128,
    install: u128,
}

const NONE: Spent = Spent {
    reserve: 0,
    install: 0,
};

fn with_batch(spent: Spent, batch: (u128, u128)) -> Spent {
    Spent {
        reserve: spent.reserve.wrapping_add(batch.0),
        install: spent.install.wrapping_add(batch.1),
    }
}

// The mean of so many batches, in microseconds.
fn mean(spent: Spent, count: u128) -> (u128, u128)
    requires { 0 < count }
{
    (spent.reserve / count / 1_000, spent.install / count / 1_000)
}

#[test]
fn times(rt: HostRuntime) -> Result<(), Fail> {
    let alloc = rt.alloc();
    let mut tables = Tables::new(alloc);
    let (mut all, mut first, mut later, mut last) = (NONE, NONE, NONE, NONE);
    for place in 1..$2u32 {
        let batch = turn(&rt, alloc, &mut tables, place)?;
        all = with_batch(all, batch);
        if place <= 10 {
            first = with_batch(first, batch);
        }
        if place > 90 && place <= 100 {
            later = with_batch(later, batch);
        }
        if place > 990 {
            last = with_batch(last, batch);
        }
    }
    let told = (mean(all, $3), mean(first, 10), mean(later, 10), mean(last, 10));
    assert_eq!(rt; told, ((0, 0), (0, 0), (0, 0), (0, 0)));
    Ok(())
}
TEST
}

# Builds the test of the tree in this folder. What an install asks is tested by a module that stands in the crate or, since its tests stand apart,
# with those of its layer.
build() {
    cd "$1/crates/fts_aux" || exit 1
    if [ ! -f src/tests.rt ]; then
        mkdir -p src/tests
        printf '\n#[cfg(test)]\nmod tests;\n' >>src/lib.rt
        sed 's/^use fts_aux::/use crate::/' ../fts_parts_tests/src/aux/checks.rt >src/tests/checks.rt
        mkdir -p proofs/tests
        cp -R ../fts_parts_tests/proofs/aux/checks proofs/tests/
        cp ../fts_parts_tests/proofs/Ascending.antt proofs/
        echo 'mod Ascending' >>proofs/Lib.antt
        find proofs/tests proofs/Ascending.antt -name '*.antt' -exec sed -i \
            's/fts_parts_tests\.proofs\.aux\./fts_aux.proofs.tests./; s/fts_parts_tests\.proofs\./fts_aux.proofs./' {} +
    fi
    if [ -f src/tests/checks.rt ]; then
        head_of_test >src/tests.rt
    fi
    if grep -q 'install_batch(&mut self, batch: &' src/tables.rt; then
        timed_test '&' $((batches + 1)) "$batches" >>src/tests.rt
    else
        timed_test '' $((batches + 1)) "$batches" >>src/tests.rt
    fi
    rt test 2>&1 | grep -E 'error|no proof|not proved' | head -20
}

git -C "$top" archive HEAD | (mkdir "$folder/now" && tar -x -C "$folder/now") || exit 1
for commit in "$@"; do
    git -C "$top" archive "$commit" | (mkdir "$folder/$commit" && tar -x -C "$folder/$commit") || exit 1
done
for tree in "$@" now; do
    (build "$folder/$tree")
done
for turn in $(seq "$turns"); do
    for tree in "$@" now; do
        echo "$tree, turn $turn: microseconds a batch, reserve and install, of all, and up to the 10th, 100th and 1,000th:"
        "$folder/$tree/crates/fts_aux/out/fts_aux_tests" tests::times 2>&1 | grep left:
    done
done
uptime
