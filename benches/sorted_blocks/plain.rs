//! The same steps in plain Rust: blocks of up to 128 items, found by their first items, and one sorted vector.
use std::time::Instant;

const STEPS: u32 = 1_000_000;
const FULL: usize = 128;

#[derive(Default)]
struct Blocks {
    used: Vec<Vec<u32>>,
    count: usize,
}

impl Blocks {
    fn find(&self, number: u32) -> Result<(usize, usize), (usize, usize)> {
        let after = self.used.partition_point(|block| block[0] <= number);
        if after == 0 {
            return Err((0, 0));
        }
        match self.used[after - 1].binary_search(&number) {
            Ok(at) => Ok((after - 1, at)),
            Err(at) => Err((after - 1, at)),
        }
    }

    fn insert(&mut self, (mut block, mut at): (usize, usize), number: u32) {
        self.count += 1;
        if self.used.is_empty() {
            let mut fresh = Vec::with_capacity(FULL);
            fresh.push(number);
            self.used.push(fresh);
            return;
        }
        if self.used[block].len() == FULL {
            let mut fresh = Vec::with_capacity(FULL);
            fresh.extend_from_slice(&self.used[block][FULL / 2..]);
            self.used[block].truncate(FULL / 2);
            self.used.insert(block + 1, fresh);
            if at > FULL / 2 {
                (block, at) = (block + 1, at - FULL / 2);
            }
        }
        self.used[block].insert(at, number);
    }

    fn remove(&mut self, (block, at): (usize, usize)) {
        self.count -= 1;
        self.used[block].remove(at);
        if self.used[block].is_empty() {
            self.used.remove(block);
            return;
        }
        for first in [block, block.wrapping_sub(1)] {
            if first < self.used.len() && first + 1 < self.used.len() && self.used[first].len() + self.used[first + 1].len() <= FULL / 2 {
                let behind = self.used.remove(first + 1);
                self.used[first].extend_from_slice(&behind);
            }
        }
    }

    fn settled(&self, (block, at): (usize, usize)) -> Option<(usize, usize)> {
        if block < self.used.len() && at < self.used[block].len() {
            Some((block, at))
        } else if block + 1 < self.used.len() {
            Some((block + 1, 0))
        } else {
            None
        }
    }
}

fn next_random(number: u64) -> u64 {
    number.wrapping_mul(6_364_136_223_846_793_005).wrapping_add(1_442_695_040_888_963_407)
}

fn blocks(size: u32) {
    let mut list = Blocks::default();
    let mut random = 1u64;
    for _ in 0..size {
        random = next_random(random);
        if let Err(place) = list.find((random >> 32) as u32) {
            list.insert(place, (random >> 32) as u32);
        }
    }
    let start = Instant::now();
    for _ in 0..STEPS / 2 {
        random = next_random(random);
        if let Err(place) = list.find((random >> 32) as u32) {
            list.insert(place, (random >> 32) as u32);
        }
        random = next_random(random);
        let place = match list.find((random >> 32) as u32) {
            Ok(place) => Some(place),
            Err(place) => list.settled(place),
        };
        if let Some(place) = place {
            list.remove(place);
        }
    }
    println!("{size} items in blocks: a change {} ns (length {}, last {random})", start.elapsed().as_nanos() / u128::from(STEPS), list.count);
}

fn vector(size: u32) {
    let mut list: Vec<u32> = Vec::new();
    let mut random = 1u64;
    for _ in 0..size {
        random = next_random(random);
        if let Err(place) = list.binary_search(&((random >> 32) as u32)) {
            list.insert(place, (random >> 32) as u32);
        }
    }
    let steps = STEPS / 10;
    let start = Instant::now();
    for _ in 0..steps / 2 {
        random = next_random(random);
        if let Err(place) = list.binary_search(&((random >> 32) as u32)) {
            list.insert(place, (random >> 32) as u32);
        }
        random = next_random(random);
        let place = list.binary_search(&((random >> 32) as u32)).unwrap_or_else(|place| place);
        if place < list.len() {
            list.remove(place);
        }
    }
    println!("{size} items in one vector: a change {} ns (length {})", start.elapsed().as_nanos() / u128::from(steps), list.len());
}

fn main() {
    for size in [1_000, 10_000, 100_000] {
        blocks(size);
        vector(size);
    }
}
