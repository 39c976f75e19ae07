//! The same steps in plain Rust, over the same data structure: records in a slab, their numbers in key order in blocks of up
//! to 128, the timers that run in such blocks in the order in which they fire, and look-ups that begin at the place of the
//! one before. It counts, reserves, then hears, and goes through the groups at the end.
use std::cmp::Ordering;
use std::hint::black_box;
use std::time::Instant;

const FULL: usize = 128;
const ENTRIES: u32 = 87;
const MOST: u32 = 8_186;
const LIMIT: usize = 100_000;
const RP: [u8; 4] = [10, 9, 9, 9];

#[derive(Clone, Copy, PartialEq, Eq, PartialOrd, Ord)]
enum What {
    Star,
    Source([u8; 4]),
    Rpt([u8; 4]),
}

#[derive(Clone, Copy, PartialEq, Eq, PartialOrd, Ord)]
struct Key {
    port: usize,
    group: [u8; 4],
    what: What,
}

#[derive(Clone, Copy, PartialEq)]
enum State {
    Join,
    PrunePending,
    Prune,
    PruneTmp,
    PrunePendingTmp,
}

#[derive(Clone, Copy)]
struct Held {
    key: Key,
    state: State,
    expires_at: Option<u64>,
    pending: Option<(u64, bool)>,
}

#[derive(Clone, Copy, PartialEq, Eq, PartialOrd, Ord)]
enum Timer {
    Pending,
    Expiry,
}

#[derive(Clone, Copy, PartialEq, Eq, PartialOrd, Ord)]
struct Deadline {
    ends_at: u64,
    timer: Timer,
    key: Key,
}

type Place = (usize, usize);

/// A list in order, in blocks of up to 128 items, each its own piece of memory. The first items of the blocks stand in one
/// row. Where an item goes, its block is merged with a neighbour if both together fill half a block at most.
struct Blocks<T> {
    blocks: Vec<Vec<T>>,
    firsts: Vec<T>,
    spare: Vec<Vec<T>>,
    len: usize,
}

impl<T> Default for Blocks<T> {
    fn default() -> Self {
        Blocks { blocks: Vec::new(), firsts: Vec::new(), spare: Vec::new(), len: 0 }
    }
}

impl<T: Copy> Blocks<T> {
    fn is_item(&self, (block, at): Place) -> bool {
        block < self.blocks.len() && at < self.blocks[block].len()
    }

    fn get(&self, (block, at): Place) -> &T {
        &self.blocks[block][at]
    }

    fn settled(&self, (block, at): Place) -> Place {
        if block < self.blocks.len() && at >= self.blocks[block].len() { (block + 1, 0) } else { (block, at) }
    }

    /// Takes memory for so many items in all, whatever blocks they split.
    fn reserve_for(&mut self, items: usize) {
        let wanted = items / (FULL / 4) + 2;
        let count = self.blocks.len() + self.spare.len();
        if wanted > count {
            self.spare.resize_with(wanted - self.blocks.len(), || Vec::with_capacity(FULL));
            self.blocks.reserve(wanted - self.blocks.len());
            self.firsts.reserve(wanted - self.firsts.len());
        }
    }

    fn find(&self, compare: impl Fn(&T) -> Ordering) -> Result<Place, Place> {
        let block = self.firsts.partition_point(|first| compare(first) != Ordering::Greater);
        if block == 0 {
            return Err((0, 0));
        }
        match self.blocks[block - 1].binary_search_by(compare) {
            Ok(at) => Ok((block - 1, at)),
            Err(at) => Err((block - 1, at)),
        }
    }

    fn find_near(&self, near: Place, compare: impl Fn(&T) -> Ordering) -> Result<Place, Place> {
        if !self.is_item(near) {
            return self.find(compare);
        }
        match compare(self.get(near)) {
            Ordering::Equal => return Ok(near),
            Ordering::Greater => return self.find(compare),
            Ordering::Less => {}
        }
        let (block, at) = near;
        if at + 1 < self.blocks[block].len() {
            match compare(self.get((block, at + 1))) {
                Ordering::Equal => return Ok((block, at + 1)),
                Ordering::Greater => return Err((block, at + 1)),
                Ordering::Less => {}
            }
        } else if block + 1 == self.blocks.len() {
            return Err((block, at + 1));
        }
        self.find(compare)
    }

    fn fresh(&mut self) -> Vec<T> {
        self.spare.pop().unwrap_or_else(|| Vec::with_capacity(FULL))
    }

    fn insert(&mut self, (mut block, mut at): Place, item: T) -> Place {
        self.len += 1;
        if self.blocks.is_empty() {
            let mut fresh = self.fresh();
            fresh.push(item);
            self.blocks.push(fresh);
            self.firsts.push(item);
            return (0, 0);
        }
        if self.blocks[block].len() == FULL {
            let mut fresh = self.fresh();
            fresh.extend_from_slice(&self.blocks[block][FULL / 2..]);
            self.blocks[block].truncate(FULL / 2);
            self.firsts.insert(block + 1, fresh[0]);
            self.blocks.insert(block + 1, fresh);
            if at > FULL / 2 {
                (block, at) = (block + 1, at - FULL / 2);
            }
        }
        self.blocks[block].insert(at, item);
        self.firsts[block] = self.blocks[block][0];
        (block, at)
    }

    fn free(&mut self, block: usize) {
        let mut gone = self.blocks.remove(block);
        self.firsts.remove(block);
        gone.clear();
        self.spare.push(gone);
    }

    fn remove(&mut self, (block, at): Place) -> (T, Place) {
        self.len -= 1;
        let item = self.blocks[block].remove(at);
        if self.blocks[block].is_empty() {
            self.free(block);
            return (item, (block, 0));
        }
        self.firsts[block] = self.blocks[block][0];
        for first in [block, block.wrapping_sub(1)] {
            if first < self.blocks.len()
                && first + 1 < self.blocks.len()
                && self.blocks[first].len() + self.blocks[first + 1].len() <= FULL / 2
            {
                let place = if first == block { (block, at) } else { (first, self.blocks[first].len() + at) };
                let (front, back) = self.blocks.split_at_mut(first + 1);
                front[first].extend_from_slice(&back[0]);
                self.free(first + 1);
                return (item, self.settled(place));
            }
        }
        (item, self.settled((block, at)))
    }
}

/// The timers that run, in the order in which they fire.
#[derive(Default)]
struct Schedule {
    list: Blocks<Deadline>,
    put: Place,
    taken: Place,
}

impl Schedule {
    fn first(&self) -> Option<&Deadline> {
        self.list.firsts.first()
    }

    fn start(&mut self, key: Key, timer: Timer, end: Option<u64>) {
        let Some(ends_at) = end else { return };
        let deadline = Deadline { ends_at, timer, key };
        let (Ok(place) | Err(place)) = self.list.find_near(self.put, |other| other.cmp(&deadline));
        self.put = self.list.insert(place, deadline);
    }

    fn stop(&mut self, key: Key, timer: Timer, end: Option<u64>) {
        let Some(ends_at) = end else { return };
        let deadline = Deadline { ends_at, timer, key };
        if let Ok(place) = self.list.find_near(self.taken, |other| other.cmp(&deadline)) {
            self.taken = self.list.remove(place).1;
        }
    }

    fn change(&mut self, key: Key, timer: Timer, from: Option<u64>, to: Option<u64>) {
        if from != to {
            self.stop(key, timer, from);
            self.start(key, timer, to);
        }
    }

    fn change_all(&mut self, from: &Held, to: &Held) {
        self.change(to.key, Timer::Pending, from.pending.map(|(end, _)| end), to.pending.map(|(end, _)| end));
        self.change(to.key, Timer::Expiry, from.expires_at, to.expires_at);
    }

    fn start_all(&mut self, held: &Held) {
        self.start(held.key, Timer::Expiry, held.expires_at);
        self.start(held.key, Timer::Pending, held.pending.map(|(end, _)| end));
    }

    fn stop_all(&mut self, held: &Held) {
        self.stop(held.key, Timer::Pending, held.pending.map(|(end, _)| end));
        self.stop(held.key, Timer::Expiry, held.expires_at);
    }
}

/// The records of all ports, and how many each port has.
struct List {
    index: Blocks<usize>,
    slab: Vec<Held>,
    vacant: Vec<usize>,
    schedule: Schedule,
    counts: [usize; 64],
}

impl Default for List {
    fn default() -> Self {
        let (index, slab, vacant, schedule) = Default::default();
        List { index, slab, vacant, schedule, counts: [0; 64] }
    }
}

impl List {
    fn get(&self, place: Place) -> &Held {
        &self.slab[*self.index.get(place)]
    }

    fn find(&self, key: &Key) -> Result<Place, Place> {
        self.index.find(|number| self.slab[*number].key.cmp(key))
    }

    fn find_near(&self, near: Place, key: &Key) -> Result<Place, Place> {
        self.index.find_near(near, |number| self.slab[*number].key.cmp(key))
    }

    /// Takes memory for so many more records.
    fn reserve(&mut self, additional: usize) {
        if additional > 0 {
            let records = self.index.len + additional;
            self.index.reserve_for(records);
            self.slab.reserve(records.saturating_sub(self.slab.len()));
            self.schedule.list.reserve_for(2 * records + 2);
        }
    }

    fn insert(&mut self, place: Place, held: Held) -> Place {
        self.schedule.start_all(&held);
        self.counts[held.key.port] += 1;
        let number = match self.vacant.pop() {
            Some(number) => {
                self.slab[number] = held;
                number
            }
            None => {
                self.slab.push(held);
                self.slab.len() - 1
            }
        };
        self.index.insert(place, number)
    }

    fn remove(&mut self, place: Place) -> Place {
        let gone = *self.get(place);
        self.schedule.stop_all(&gone);
        self.counts[gone.key.port] -= 1;
        let (number, behind) = self.index.remove(place);
        self.vacant.push(number);
        behind
    }

    fn replace(&mut self, place: Place, held: Held) {
        let number = *self.index.get(place);
        let old = self.slab[number];
        self.schedule.change_all(&old, &held);
        self.slab[number] = held;
    }
}

struct Entries<'a> {
    bytes: &'a [u8],
    group: [u8; 4],
    joins: bool,
}

/// The entries of a message, list by list.
fn each_list<'a>(body: &'a [u8], mut hear: impl FnMut(Entries<'a>)) -> Option<()> {
    let mut left = body.get(10..)?;
    for _ in 0..body[7] {
        let (head, rest) = left.split_at_checked(12)?;
        let group = [head[4], head[5], head[6], head[7]];
        let joined = usize::from(u16::from_be_bytes([head[8], head[9]]));
        let pruned = usize::from(u16::from_be_bytes([head[10], head[11]]));
        let (bytes, rest) = rest.split_at_checked(joined * 8)?;
        hear(Entries { bytes, group, joins: true });
        let (bytes, rest) = rest.split_at_checked(pruned * 8)?;
        hear(Entries { bytes, group, joins: false });
        left = rest;
    }
    left.is_empty().then_some(())
}

fn is_valid(source: [u8; 4]) -> bool {
    source[0] != 0 && source[0] < 224
}

fn is_sound(body: &[u8]) -> bool {
    let mut sound = true;
    let whole = each_list(body, |list| {
        for entry in list.bytes.chunks_exact(8) {
            sound &= entry[0] == 1 && entry[1] == 0 && entry[3] == 32 && matches!(entry[2], 4 | 5 | 7);
            sound &= is_valid([entry[4], entry[5], entry[6], entry[7]]);
        }
    });
    sound && whole.is_some()
}

fn what_of(entry: &[u8]) -> Option<What> {
    let source = [entry[4], entry[5], entry[6], entry[7]];
    match entry[2] {
        7 if source == RP => Some(What::Star),
        7 => None,
        5 => Some(What::Rpt(source)),
        _ => Some(What::Source(source)),
    }
}

#[derive(Default)]
struct Ports {
    list: List,
    moment: u64,
}

impl Ports {
    /// How many records are new, and how many entries create one, held or not.
    fn count_new(&self, port: usize, body: &[u8]) -> (usize, usize) {
        let mut near = (0, 0);
        let mut count = 0;
        let mut creating = 0;
        each_list(body, |list| {
            for entry in list.bytes.chunks_exact(8) {
                let Some(what) = what_of(entry) else { continue };
                let found = self.list.find_near(near, &Key { port, group: list.group, what });
                let creates = matches!(what, What::Rpt(_)) != list.joins;
                count += usize::from(creates && found.is_err());
                creating += usize::from(creates);
                near = match found {
                    Ok(place) | Err(place) => place,
                };
            }
        });
        (count, creating)
    }

    fn act(&mut self, near: Place, key: Key, joins: bool, expires_at: Option<u64>) -> Place {
        let found = self.list.find_near(near, &key);
        let held = found.ok().map(|place| *self.list.get(place));
        let greater = |held: Held| match (held.expires_at, expires_at) {
            (Some(a), Some(b)) => Some(a.max(b)),
            _ => None,
        };
        let pending = Some((self.moment, false));
        let next = match (key.what, joins, held) {
            (What::Rpt(_), true, _) => None,
            (What::Rpt(_), false, None) => Some((State::PrunePending, expires_at, pending)),
            (What::Rpt(_), false, Some(held)) => Some(match held.state {
                State::PruneTmp => (State::Prune, greater(held), None),
                State::PrunePendingTmp => (State::PrunePending, greater(held), held.pending),
                state => (state, greater(held), held.pending),
            }),
            (_, true, None) => Some((State::Join, expires_at, None)),
            (_, true, Some(held)) => Some((State::Join, greater(held), None)),
            (_, false, None) => None,
            (_, false, Some(held)) => Some((State::PrunePending, held.expires_at, held.pending.or(pending))),
        };
        match (found, next) {
            (Ok(place), Some((state, expires_at, pending))) => {
                self.list.replace(place, Held { key, state, expires_at, pending });
                place
            }
            (Ok(place), None) => self.list.remove(place),
            (Err(place), Some((state, expires_at, pending))) => {
                self.list.insert(place, Held { key, state, expires_at, pending })
            }
            (Err(place), None) => place,
        }
    }

    /// Goes through the (S,G,rpt) records of a group.
    fn each_rpt(&mut self, port: usize, group: [u8; 4], ends: bool) {
        let first = Key { port, group, what: What::Rpt([0; 4]) };
        let mut place = match self.list.find(&first) {
            Ok(place) => place,
            Err(place) => self.list.index.settled(place),
        };
        while self.list.index.is_item(place) {
            let number = *self.list.index.get(place);
            let held = &mut self.list.slab[number];
            if held.key.port != port || held.key.group != group {
                return;
            }
            if !ends {
                held.state = match held.state {
                    State::Prune => State::PruneTmp,
                    State::PrunePending => State::PrunePendingTmp,
                    state => state,
                };
            } else if matches!(held.state, State::PruneTmp | State::PrunePendingTmp) {
                place = self.list.remove(place);
                continue;
            }
            place = self.list.index.settled((place.0, place.1 + 1));
        }
    }

    fn hear(&mut self, port: usize, body: &[u8]) -> usize {
        if !is_sound(body) {
            return usize::MAX;
        }
        let (new, creating) = self.count_new(port, body);
        let needed = self.list.counts[port] + new;
        if needed > LIMIT {
            return needed;
        }
        self.list.reserve(creating);
        let holdtime = u64::from(u16::from_be_bytes([body[8], body[9]]));
        let expires_at = Some(self.moment + holdtime * 1000);
        let mut near = (0, 0);
        each_list(body, |list| {
            for entry in list.bytes.chunks_exact(8) {
                let Some(what) = what_of(entry) else { continue };
                near = self.act(near, Key { port, group: list.group, what }, list.joins, expires_at);
                if what == What::Star && list.joins {
                    self.each_rpt(port, list.group, false);
                }
            }
        });
        each_list(body, |list| {
            if list.joins {
                self.each_rpt(port, list.group, true);
            }
        });
        0
    }

    /// The timer that is first fires, at its end. Beside a place near by stands whether an echo is told.
    fn fire(&mut self, near: Place, first: Deadline) -> (bool, Place) {
        self.moment = self.moment.max(first.ends_at);
        let Ok(place) = self.list.find_near(near, &first.key) else { unreachable!() };
        let held = *self.list.get(place);
        match (first.timer, held.key.what) {
            (Timer::Pending, What::Rpt(_)) => {
                self.list.replace(place, Held { state: State::Prune, pending: None, ..held });
                (false, place)
            }
            (Timer::Pending, _) => (held.pending.is_some_and(|(_, several)| several), self.list.remove(place)),
            (Timer::Expiry, _) => (false, self.list.remove(place)),
        }
    }

    /// Runs to a moment, or to an echo; whether the moment was reached.
    fn run_to(&mut self, moment: u64) -> bool {
        let mut near = (0, 0);
        while let Some(&first) = self.list.schedule.first() {
            if first.ends_at > moment {
                break;
            }
            let (echo, behind) = self.fire(near, first);
            if echo {
                return false;
            }
            near = behind;
        }
        self.moment = self.moment.max(moment);
        true
    }

    fn next_due(&self) -> Option<u64> {
        Some(self.list.schedule.first()?.ends_at.max(self.moment))
    }

    fn count(&self) -> usize {
        self.list.index.len
    }
}

fn start(sets: u8) -> Vec<u8> {
    vec![1, 0, 10, 0, 0, 2, 0, sets, 0, 210]
}

fn push_entry(body: &mut Vec<u8>, flags: u8, address: [u8; 4]) {
    let [a, b, c, d] = address;
    body.extend_from_slice(&[1, 0, flags, 32, a, b, c, d]);
}

fn push_group(body: &mut Vec<u8>, group: u32, joined: u16, pruned: u16) {
    let [_, _, high, low] = group.to_be_bytes();
    body.extend_from_slice(&[1, 0, 0, 32, 239, 1, high, low]);
    body.extend_from_slice(&joined.to_be_bytes());
    body.extend_from_slice(&pruned.to_be_bytes());
}

fn source_of(number: u32) -> [u8; 4] {
    let [_, b, c, d] = number.to_be_bytes();
    [11, b, c, d]
}

fn in_order(group: u32, first: u32, count: u32, joins: bool) -> Vec<u8> {
    let mut body = start(1);
    let (joined, pruned, flags) = if joins { (count as u16, 0, 4) } else { (0, count as u16, 5) };
    push_group(&mut body, group, joined, pruned);
    for index in 0..count {
        push_entry(&mut body, flags, source_of(first + index));
    }
    body
}

fn by_groups(records: u32) -> Vec<Vec<u8>> {
    let share = (records / ENTRIES).max(8) / 8;
    (0..share)
        .flat_map(|turn| (0..8).map(move |sender| in_order(sender * share + turn, 0, ENTRIES, true)))
        .collect()
}

fn at_random(records: u32) -> Vec<Vec<u8>> {
    let mut number = 1u32;
    let mut messages = Vec::new();
    for _ in 0..records / ENTRIES {
        let mut body = start(1);
        push_group(&mut body, 7, ENTRIES as u16, 0);
        for _ in 0..ENTRIES {
            number = number.wrapping_mul(1_140_671_485).wrapping_add(12_820_163) & 0xff_ffff;
            push_entry(&mut body, 4, source_of(number));
        }
        messages.push(body);
    }
    messages
}

fn stars(group: u32) -> Vec<u8> {
    let mut body = start(255);
    for set in 0..255 {
        push_group(&mut body, group, 1, 29);
        push_entry(&mut body, 7, RP);
        for index in 0..29 {
            push_entry(&mut body, 5, source_of((set * 29 + index) * 12));
        }
    }
    body
}

fn hear_all(ports: &mut Ports, count: usize, bodies: &[Vec<u8>]) -> u32 {
    let hear = |port| bodies.iter().map(|body| u32::from(ports.hear(port, body) != 0)).sum::<u32>();
    (0..count).map(hear).sum()
}

fn tell(what: &str, count: usize, nanos: u128, times: usize) {
    let tenths = nanos * 10 / (times as u128).max(1);
    println!("{what}, {count} records: {}.{} ns", tenths / 10, tenths % 10);
}

/// Fresh records, then refreshes, of these messages on each of so many ports.
fn measure_on(ports: &mut Ports, count: usize, bodies: &[Vec<u8>], rounds: u64) {
    let begin = Instant::now();
    hear_all(ports, count, bodies);
    tell("  fresh, a record", ports.count(), begin.elapsed().as_nanos(), ports.count());
    let mut least = u128::MAX;
    for round in 1..rounds + 1 {
        ports.run_to(round);
        let begin = Instant::now();
        hear_all(ports, count, bodies);
        least = least.min(begin.elapsed().as_nanos());
    }
    tell("  refresh, an entry", ports.count(), least, ports.count());
}

fn measure(name: &str, bodies: &[Vec<u8>], rounds: u64) {
    println!("{name}");
    for _ in 0..3 {
        measure_on(&mut Ports::default(), 1, bodies, rounds);
    }
}

fn time_runs(ports: &mut Ports, moments: std::ops::Range<u64>) -> u128 {
    let begin = Instant::now();
    for moment in moments {
        ports.run_to(black_box(moment));
    }
    begin.elapsed().as_nanos()
}

fn measure_time(bodies: &[Vec<u8>]) {
    let mut ports = Ports::default();
    hear_all(&mut ports, 1, bodies);
    let held = ports.count();
    tell("run_to, nothing due, behind a hearing", held, time_runs(&mut ports, 1..2), 1);
    tell("run_to, nothing due, again", held, time_runs(&mut ports, 2..1_002), 1_000);
    let begin = Instant::now();
    let mut sum = 0;
    for _ in 0..1_000 {
        sum += black_box(&ports).next_due().unwrap_or(0);
    }
    tell("next_due", held, begin.elapsed().as_nanos(), 1_000);
    println!("  ({sum})");
}

/// What it costs that all end at one moment.
fn measure_end(name: &str, bodies: &[Vec<u8>]) {
    let mut ports = Ports::default();
    hear_all(&mut ports, 1, bodies);
    let held = ports.count();
    let nanos = time_runs(&mut ports, 210_000..210_001);
    println!("{name} ({} left)", ports.count());
    tell("  expiry of all, a record", held, nanos, held);
}

fn measure_one(name: &str, records: u32, joins: bool, body: &[u8]) {
    for _ in 0..3 {
        let mut ports = Ports::default();
        let mut first = 0;
        for _ in 0..1 + records / MOST {
            let count = (records - first).min(MOST);
            ports.hear(0, &in_order(7, first, count, joins));
            first += count;
        }
        ports.run_to(0);
        let before = ports.count();
        let begin = Instant::now();
        let needed = ports.hear(0, body);
        let micros = begin.elapsed().as_nanos() / 1_000;
        println!("{name}: {micros} us (from {before} to {} records, needed {needed})", ports.count());
    }
}

fn main() {
    for (records, rounds) in [(1_000, 200), (10_000, 40), (100_000, 8)] {
        let grouped = by_groups(records);
        measure("in key order", &grouped, rounds);
        measure_time(&grouped);
        measure_end("in key order", &grouped);
        let mixed = at_random(records);
        measure("at random", &mixed, rounds);
        measure_end("at random", &mixed);
    }
    let fresh = in_order(8, 0, MOST, true);
    for records in [1_000, 10_000, 91_000, 99_000] {
        measure_one("8,186 new sources, 64 KiB", records, true, &fresh);
    }
    for records in [1_000, 10_000, 92_000] {
        measure_one("255 Join(*,G), 64 KiB", records, false, &stars(7));
    }
    println!("in key order, on 64 ports");
    measure_on(&mut Ports::default(), 64, &by_groups(100_000), 2);
}
