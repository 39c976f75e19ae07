//! The same steps in plain Rust: ranges of addresses, each with the longest row that matches, and one search among them.
use std::hint::black_box;
use std::time::Instant;

const LENGTHS: [u8; 8] = [9, 12, 14, 16, 18, 20, 22, 24];

fn next(state: u32) -> u32 {
    let one = state ^ (state << 13);
    let two = one ^ (one >> 17);
    two ^ (two << 5)
}

fn prefix(row: u32, length: u8) -> u32 {
    let past = 32 - u32::from(length);
    let number = (row << 23) | (next(row.wrapping_mul(2_654_435_761)) >> 9);
    (number >> past) << past
}

/// The numbers of the last addresses of all ranges, and for each the longest row that matches: its length, and where
/// it leads.
struct Map<N> {
    ends: Vec<N>,
    answers: Vec<Option<(u8, u32)>>,
}

impl<N: Copy + Ord> Map<N> {
    fn end_at(&mut self, number: N) {
        if let Err(place) = self.ends.binary_search(&number) {
            let answer = self.answers.get(place).copied().flatten();
            self.ends.insert(place, number);
            self.answers.insert(place, answer);
        }
    }

    fn add(&mut self, before: Option<N>, last: N, length: u8, to: u32) {
        if let Some(before) = before {
            self.end_at(before);
        }
        self.end_at(last);
        let first = before.map_or(0, |before| self.ends.partition_point(|end| *end <= before));
        let behind = self.ends.partition_point(|end| *end <= last);
        for answer in &mut self.answers[first..behind] {
            if !answer.is_some_and(|(longer, _)| longer > length) {
                *answer = Some((length, to));
            }
        }
    }

    fn via(&self, number: N) -> Option<u32> {
        let place = self.ends.partition_point(|end| *end < number);
        Some((*self.answers.get(place)?)?.1)
    }
}

/// The rows; `ends` tells the number before a prefix's first address, and that of its last.
fn fill<N: Copy + Ord>(ends: impl Fn(u32, u8) -> (Option<N>, N)) -> Map<N> {
    let mut map = Map { ends: Vec::new(), answers: Vec::new() };
    for length in LENGTHS {
        for row in 0..512 {
            let (before, last) = ends(prefix(row, length), length);
            map.add(before, last, length, 0x0a00_0000 | row);
        }
    }
    map
}

fn measure<N: Copy + Ord>(rounds: u32, name: &str, number: impl Fn(u32) -> N, ends: impl Fn(u32, u8) -> (Option<N>, N)) {
    let start = Instant::now();
    let map = black_box(fill(ends));
    let filled = start.elapsed().as_nanos() * 1000 / 4096;
    let mut state = 2_463_534_242u32;
    let mut sum = 0u32;
    let start = Instant::now();
    for _ in 0..rounds {
        state = next(state);
        if map.via(number(state)).is_some_and(|to| to >> 24 != 0) {
            sum += 1;
        }
    }
    let time = start.elapsed().as_nanos() * 1000 / u128::from(rounds.max(1));
    println!("via, {name}: {time} ps at {} ranges (found {sum})", map.ends.len());
    println!("add_via, {name}: {filled} ps a row");
}

fn main() {
    let rounds: u32 = std::env::args().nth(1).and_then(|word| word.parse().ok()).unwrap_or(10_000_000);
    measure(rounds, "IPv4", |address| address, |prefix, length| {
        (prefix.checked_sub(1), prefix + (u32::MAX >> length))
    });
    measure(rounds, "IPv6", |address| u128::from(address) << 96, |prefix, length| {
        let first = u128::from(prefix) << 96;
        (first.checked_sub(1), first + (u128::MAX >> length))
    });
}
