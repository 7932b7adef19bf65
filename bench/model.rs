//! A plain model of the index in memory, without contracts: what its part of an INSERT takes, and
//! what a batch takes, by how words are laid out.
//!
//!     rustc -O bench/model.rs -o model && ./model LAYOUT [MAILS [CACHED]]
//!
//! LAYOUT is one of
//!
//! - `apart`: the cache and the tables have each their words, as in the program; a batch copies the
//!   lists of its words, looks these up in the tables, writes its entry, and cuts the cache's lists;
//! - `apart-once`: the same, but a batch writes its entry at once, the tables take the lists from
//!   there, and the places of the cuts are kept, so that no list is walked twice;
//! - `apart-sorted`: as `apart`, but the words of the tables are sorted where a quarter of them came
//!   since, and a batch tries the three places behind its last word's before it looks one up;
//! - `joined`: one dictionary, whose words have both what is cached and their nodes;
//! - `joined-once`: one dictionary, and an entry that is written at once.
//!
//! Mails have 200 words each, drawn from 50,000 as those of `bench/queries.py` are. Where more than
//! CACHED of them are cached, the first 1,000 leave with a batch. Told are for each tenth of the
//! mails the microseconds of a mail and of its part of the batches, then how many words the last
//! batch had, the bytes of the lists and what the allocator was asked for them, and the memory that
//! was held beside the dictionary of names.
use std::collections::{BTreeMap, BTreeSet, HashMap, VecDeque};
use std::hash::{BuildHasherDefault, Hash, Hasher};
use std::hint::black_box;
use std::time::Instant;

const NAMES: usize = 50_000;
const BATCH: usize = 1_000;

/// A hash that costs a multiplication for each eight bytes.
#[derive(Default)]
struct Quick(u64);

impl Hasher for Quick {
    fn write(&mut self, bytes: &[u8]) {
        for chunk in bytes.chunks(8) {
            let mut eight = [0; 8];
            eight[..chunk.len()].copy_from_slice(chunk);
            let mixed = self.0.rotate_left(5) ^ u64::from_le_bytes(eight);
            self.0 = mixed.wrapping_mul(0x9e37_79b9_7f4a_7c15);
        }
    }

    fn finish(&self) -> u64 {
        self.0 ^ (self.0 >> 32)
    }
}

type Map<V> = HashMap<Word, V, BuildHasherDefault<Quick>>;

/// A word in its own value, padded with zeros.
#[derive(Clone, Copy, Default, PartialEq, Eq, PartialOrd, Ord)]
struct Word {
    bytes: [u8; 16],
    len: u8,
}

impl Word {
    fn as_bytes(&self) -> &[u8] {
        &self.bytes[..self.len as usize]
    }
}

impl Hash for Word {
    fn hash<H: Hasher>(&self, state: &mut H) {
        state.write(self.as_bytes());
    }
}

fn put_number(out: &mut Vec<u8>, n: u64) {
    if n >= 128 * 128 {
        out.push((n >> 14) as u8);
    }
    if n >= 128 {
        out.push((n >> 7 & 127) as u8);
    }
    out.push((n & 127) as u8 | 128);
}

fn number_at(bytes: &[u8]) -> (u64, usize) {
    let mut value = 0;
    let mut at = 0;
    while bytes[at] < 128 {
        value = value * 128 + u64::from(bytes[at]);
        at += 1;
    }
    (value * 128 + u64::from(bytes[at] - 128), at + 1)
}

fn body_len(bytes: &[u8]) -> usize {
    let mut before = 0;
    for (at, &byte) in bytes.iter().enumerate() {
        if byte == 0 && before >= 128 {
            return at + 1;
        }
        before = byte;
    }
    unreachable!()
}

/// Where the documents up to one end: the place, the last id, and how many there are.
#[derive(Clone, Copy)]
struct Cut {
    at: usize,
    last: u64,
    count: u32,
}

/// The cached documents of a word.
#[derive(Default)]
struct Queue {
    bytes: Vec<u8>,
    start: usize,
    before: u64,
    last: u64,
}

impl Queue {
    fn push(&mut self, doc: u64, positions: &[u32]) {
        let (len, room) = (self.bytes.len(), 3 * positions.len() + 10);
        if self.bytes.capacity() - len < room {
            self.bytes.reserve_exact(room.max(len / 8 + 24));
        }
        put_number(&mut self.bytes, doc - self.last);
        let mut next = 0;
        for &position in positions {
            put_number(&mut self.bytes, u64::from(position + 1 - next));
            next = position + 1;
        }
        self.bytes.push(0);
        self.last = doc;
    }

    fn is_empty(&self) -> bool {
        self.start == self.bytes.len()
    }

    /// The first id, and the place behind it.
    fn first(&self) -> (u64, usize) {
        let (increase, len) = number_at(&self.bytes[self.start..]);
        (self.before + increase, self.start + len)
    }

    fn leaves(&self, doc: u64) -> bool {
        !self.is_empty() && self.first().0 <= doc
    }

    fn cut(&self, doc: u64) -> Cut {
        let (mut at, mut last, mut count) = (self.start, self.before, 0);
        while at < self.bytes.len() {
            let (increase, len) = number_at(&self.bytes[at..]);
            if last + increase > doc {
                break;
            }
            last += increase;
            at += len + body_len(&self.bytes[at + len..]);
            count += 1;
        }
        Cut { at, last, count }
    }

    fn put_until(&self, cut: Cut, out: &mut Vec<u8>) {
        let (first, place) = self.first();
        put_number(out, first);
        out.extend_from_slice(&self.bytes[place..cut.at]);
    }

    fn list_until(&self, cut: Cut) -> List {
        let (first, place) = self.first();
        let rest = &self.bytes[place..cut.at];
        let mut few = [0; 24];
        let mut at = 0;
        for shift in [14, 7] {
            if first >> shift > 0 {
                few[at] = (first >> shift & 127) as u8;
                at += 1;
            }
        }
        few[at] = (first & 127) as u8 | 128;
        at += 1;
        if at + rest.len() > few.len() {
            let mut many = Vec::with_capacity(at + rest.len());
            many.extend_from_slice(&few[..at]);
            many.extend_from_slice(rest);
            return List::Many(many);
        }
        few[at..at + rest.len()].copy_from_slice(rest);
        List::Few(few, at + rest.len())
    }

    fn drop_until(&mut self, cut: Cut) {
        (self.start, self.before) = (cut.at, cut.last);
        let rest = self.bytes.len() - cut.at;
        if rest == 0 {
            self.bytes = Vec::new();
            self.start = 0;
        } else if cut.at > rest / 4 {
            self.bytes.copy_within(cut.at.., 0);
            self.bytes.truncate(rest);
            self.start = 0;
        }
    }
}

/// The nodes of a word.
#[derive(Default)]
struct Run {
    bytes: Vec<u8>,
    last: u64,
    count: u32,
}

impl Run {
    fn reserve(&mut self, size: usize) {
        let (len, room) = (self.bytes.len(), size + 10);
        if self.bytes.capacity() - len < room {
            let more = if len == 0 { 0 } else { (len / 2 + 1).max(96) };
            self.bytes.reserve_exact(room.max(more));
        }
    }

    fn push(&mut self, node: &[u8], cut: Cut) {
        put_number(&mut self.bytes, node.len() as u64);
        put_number(&mut self.bytes, u64::from(cut.count));
        self.bytes.extend_from_slice(node);
        self.last = cut.last;
        self.count += 1;
    }
}

/// Bytes that lie in their own value where they are few, as in the program.
enum List {
    Few([u8; 24], usize),
    Many(Vec<u8>),
}

impl List {
    fn bytes(&self) -> &[u8] {
        match self {
            List::Few(bytes, len) => &bytes[..*len],
            List::Many(bytes) => bytes,
        }
    }
}

/// A word of a batch, with a list of its own, or with the place of its list in the entry.
struct Part {
    word: Word,
    slot: u32,
    list: List,
    place: std::ops::Range<usize>,
    cut: Cut,
}

fn put_head(entry: &mut Vec<u8>, word: &Word, size: usize) {
    entry.push(word.len);
    entry.extend_from_slice(word.as_bytes());
    entry.extend_from_slice(&(size as u32).to_be_bytes());
}

/// The documents of a word up to one: copied, or written into the entry at once.
fn part_of(word: Word, slot: u32, queue: &Queue, doc: u64, entry: Option<&mut Vec<u8>>) -> Part {
    let cut = queue.cut(doc);
    let mut list = List::Few([0; 24], 0);
    let mut place = 0..0;
    if let Some(entry) = entry {
        put_head(entry, &word, 0);
        let start = entry.len();
        queue.put_until(cut, entry);
        let size = (entry.len() - start) as u32;
        entry[start - 4..start].copy_from_slice(&size.to_be_bytes());
        place = start..entry.len();
    } else {
        list = queue.list_until(cut);
    }
    Part { word, slot, list, place, cut }
}

impl Part {
    fn list<'a>(&'a self, entry: &'a [u8]) -> &'a [u8] {
        if self.place.is_empty() {
            self.list.bytes()
        } else {
            &entry[self.place.clone()]
        }
    }
}

/// The entry of a batch, which is written already, or from the lists.
fn entry_of(entry: Vec<u8>, parts: &[Part]) -> Vec<u8> {
    if !entry.is_empty() {
        return entry;
    }
    let size_of = |part: &Part| 5 + part.word.len as usize + part.list.bytes().len();
    let mut entry = Vec::with_capacity(parts.iter().map(size_of).sum());
    for part in parts {
        let list = part.list.bytes();
        put_head(&mut entry, &part.word, list.len());
        entry.extend_from_slice(list);
    }
    entry
}

type Mail = Vec<(Word, Vec<u32>)>;

trait Layout {
    fn add(&mut self, doc: u64, mail: &Mail);
    /// Takes the first thousand documents out of the cache, up to this one, and tells how many
    /// words they have.
    fn batch(&mut self, doc: u64) -> usize;
    /// The bytes of all lists, and those that were asked for them.
    fn sizes(&self) -> (usize, usize);
}

#[derive(Default)]
struct Cached {
    word: Word,
    queue: Queue,
}

#[derive(Default)]
struct Apart {
    once: bool,
    sorts: bool,
    numbers: Map<u32>,
    slots: Vec<Cached>,
    vacant: Vec<u32>,
    // A word that left may still stand here.
    order: BTreeMap<Word, u32>,
    places: Map<u32>,
    tables: Vec<(Word, Run)>,
    // How many words the tables had when they were sorted.
    sorted: usize,
    table_order: BTreeSet<Word>,
    // The numbers of each cached mail's words.
    notes: VecDeque<Vec<u32>>,
}

impl Apart {
    fn enter(&mut self, word: Word) -> u32 {
        if let Some(number) = self.numbers.get(&word) {
            return *number;
        }
        let number = self.vacant.pop().unwrap_or(self.slots.len() as u32);
        if number as usize == self.slots.len() {
            self.slots.push(Cached::default());
        }
        self.slots[number as usize].word = word;
        self.numbers.insert(word, number);
        self.order.insert(word, number);
        number
    }

    fn sort_tables(&mut self) {
        if !self.sorts || self.tables.len() <= self.sorted + self.sorted / 4 {
            return;
        }
        self.tables.sort_unstable_by_key(|(word, _)| *word);
        for (place, (word, _)) in self.tables.iter().enumerate() {
            self.places.insert(*word, place as u32);
        }
        self.sorted = self.tables.len();
    }

    /// The place of a word of the tables, which is mostly one of the first behind the last word's.
    fn place_near(&self, last: usize, word: &Word) -> Option<usize> {
        let end = self.tables.len().min(last + 4);
        (last + 1..end).find(|place| self.tables[*place].0 == *word)
    }

    fn place_of(&mut self, last: usize, word: Word) -> usize {
        if self.sorts {
            if let Some(place) = self.place_near(last, &word) {
                return place;
            }
        }
        if let Some(place) = self.places.get(&word) {
            return *place as usize;
        }
        let place = self.tables.len();
        self.tables.push((word, Run::default()));
        self.places.insert(word, place as u32);
        self.table_order.insert(word);
        place
    }

    fn drop_at(&mut self, slot: usize, cut: Cut) {
        let cached = &mut self.slots[slot];
        cached.queue.drop_until(cut);
        if cached.queue.is_empty() {
            cached.queue = Queue::default();
            self.numbers.remove(&cached.word);
            self.vacant.push(slot as u32);
        }
    }
}

impl Layout for Apart {
    fn add(&mut self, doc: u64, mail: &Mail) {
        let numbers: Vec<u32> = mail.iter().map(|(word, _)| self.enter(*word)).collect();
        for (number, (_, positions)) in numbers.iter().zip(mail) {
            self.slots[*number as usize].queue.push(doc, positions);
        }
        self.notes.push_back(numbers);
    }

    fn batch(&mut self, doc: u64) -> usize {
        let mut leaving = Vec::new();
        for (word, slot) in &self.order {
            let cached = &self.slots[*slot as usize];
            if cached.queue.leaves(doc) && cached.word == *word {
                leaving.push((*word, *slot));
            }
        }
        let mut entry = Vec::new();
        let mut parts = Vec::with_capacity(leaving.len());
        for (word, slot) in leaving {
            let into = self.once.then_some(&mut entry);
            parts.push(part_of(word, slot, &self.slots[slot as usize].queue, doc, into));
        }
        self.sort_tables();
        let mut places = Vec::with_capacity(parts.len());
        let mut place = 0;
        for part in &parts {
            place = self.place_of(place, part.word);
            self.tables[place].1.reserve(part.list(&entry).len());
            places.push(place);
        }
        let entry = black_box(entry_of(entry, &parts));
        for (part, place) in parts.iter().zip(places) {
            self.tables[place].1.push(part.list(&entry), part.cut);
        }
        if self.once {
            for part in &parts {
                self.drop_at(part.slot as usize, part.cut);
            }
        } else {
            for slot in 0..self.slots.len() {
                if self.slots[slot].queue.leaves(doc) {
                    self.drop_at(slot, self.slots[slot].queue.cut(doc));
                }
            }
        }
        self.notes.drain(..BATCH);
        parts.len()
    }

    fn sizes(&self) -> (usize, usize) {
        let queues = self.slots.iter().map(|cached| &cached.queue.bytes);
        sums(queues.chain(self.tables.iter().map(|(_, run)| &run.bytes)))
    }
}

#[derive(Default)]
struct Known {
    word: Word,
    queue: Queue,
    run: Run,
}

#[derive(Default)]
struct Joined {
    once: bool,
    numbers: Map<u32>,
    slots: Vec<Known>,
    order: BTreeMap<Word, u32>,
    notes: VecDeque<Vec<u32>>,
}

impl Joined {
    fn enter(&mut self, word: Word) -> u32 {
        if let Some(number) = self.numbers.get(&word) {
            return *number;
        }
        let number = self.slots.len() as u32;
        self.slots.push(Known { word, ..Known::default() });
        self.numbers.insert(word, number);
        self.order.insert(word, number);
        number
    }
}

impl Layout for Joined {
    fn add(&mut self, doc: u64, mail: &Mail) {
        let numbers: Vec<u32> = mail.iter().map(|(word, _)| self.enter(*word)).collect();
        for (number, (_, positions)) in numbers.iter().zip(mail) {
            self.slots[*number as usize].queue.push(doc, positions);
        }
        self.notes.push_back(numbers);
    }

    fn batch(&mut self, doc: u64) -> usize {
        let mut entry = Vec::new();
        let mut parts = Vec::new();
        for slot in self.order.values() {
            let known = &mut self.slots[*slot as usize];
            if known.queue.leaves(doc) {
                let into = self.once.then_some(&mut entry);
                let part = part_of(known.word, *slot, &known.queue, doc, into);
                known.run.reserve(part.list(&entry).len());
                parts.push(part);
            }
        }
        let entry = black_box(entry_of(entry, &parts));
        for part in &parts {
            let known = &mut self.slots[part.slot as usize];
            known.run.push(part.list(&entry), part.cut);
            let cut = if self.once { part.cut } else { known.queue.cut(doc) };
            known.queue.drop_until(cut);
        }
        self.notes.drain(..BATCH);
        parts.len()
    }

    fn sizes(&self) -> (usize, usize) {
        let lists = self.slots.iter().flat_map(|known| [&known.queue.bytes, &known.run.bytes]);
        sums(lists)
    }
}

fn sums<'a>(lists: impl Iterator<Item = &'a Vec<u8>>) -> (usize, usize) {
    lists.fold((0, 0), |sum, list| (sum.0 + list.len(), sum.1 + list.capacity()))
}

/// A number from 0 to 1 that looks like chance.
fn chance(state: &mut u64) -> f64 {
    *state ^= *state << 13;
    *state ^= *state >> 7;
    *state ^= *state << 17;
    (*state >> 11) as f64 / (1u64 << 53) as f64
}

/// A name of five to nine letters for each rank.
fn name_of(rank: usize) -> Word {
    let mut rest = (rank as u64 + 1).wrapping_mul(0x9e37_79b9_7f4a_7c15);
    let mut word = Word { len: 5 + (rest >> 60) as u8 % 5, ..Word::default() };
    for byte in &mut word.bytes[..word.len as usize] {
        *byte = b'a' + (rest % 26) as u8;
        rest /= 26;
    }
    word
}

/// A mail whose words are drawn so that each doubling of a rank is as likely as any other.
fn mail_of(names: &[Word], state: &mut u64) -> Mail {
    let mut words: BTreeMap<Word, Vec<u32>> = BTreeMap::new();
    for place in 0..200 {
        let rank = (NAMES as f64).powf(chance(state)) as usize - 1;
        words.entry(names[rank.min(NAMES - 1)]).or_default().push(7 * place);
    }
    words.into_iter().collect()
}

/// The most memory that this process held, in millions of bytes.
fn held() -> u64 {
    let status = std::fs::read_to_string("/proc/self/status").expect("Linux tells its memory");
    let line = status.lines().find(|line| line.starts_with("VmHWM")).expect("a line VmHWM");
    let size = line.split_whitespace().nth(1).expect("a size");
    size.parse::<u64>().expect("a number") * 1024 / 1_000_000
}

fn main() {
    let words: Vec<String> = std::env::args().skip(1).collect();
    let number = |place: usize, standard: usize| match words.get(place) {
        Some(word) => word.parse().expect("a number"),
        None => standard,
    };
    let name = words.first().map_or("", String::as_str);
    let (once, sorts) = (name.ends_with("-once"), name.ends_with("-sorted"));
    let mut index: Box<dyn Layout> = match name {
        "apart" | "apart-once" | "apart-sorted" => {
            Box::new(Apart { once, sorts, ..Apart::default() })
        }
        "joined" | "joined-once" => Box::new(Joined { once, ..Joined::default() }),
        _ => panic!("model apart|apart-once|apart-sorted|joined|joined-once [MAILS [CACHED]]"),
    };
    let (mails, cached) = (number(1, 10_000), number(2, 2_700));
    let names: Vec<Word> = (0..NAMES).map(name_of).collect();
    let mut state = 88_172_645_463_325_252;
    let mut kept = 0;
    let (mut nanos, mut batches, mut count) = ([0u128; 10], [0u128; 10], 0);
    let before = held();
    for doc in 1..=mails {
        let tenth = (doc - 1) * 10 / mails;
        let mail = mail_of(&names, &mut state);
        let start = Instant::now();
        index.add(doc as u64, &mail);
        nanos[tenth] += start.elapsed().as_nanos();
        kept += 1;
        if kept > cached {
            kept -= BATCH;
            let start = Instant::now();
            count = index.batch((doc - kept) as u64);
            batches[tenth] += start.elapsed().as_nanos();
        }
    }
    let micros = |nanos: u128| nanos as f64 / (mails as f64 / 10.0) / 1e3;
    print!("{name}, {mails} mails:");
    for (mail, batch) in nanos.iter().zip(batches) {
        print!(" {:.0}+{:.0}", micros(*mail), micros(batch));
    }
    let (bytes, asked) = index.sizes();
    let (bytes, asked) = (bytes as f64 / 1e6, asked as f64 / 1e6);
    println!(" us, {count} words, {bytes:.1} of {asked:.1} MB, {} MB held", held() - before);
}
