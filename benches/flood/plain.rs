//! The least that it can cost to end many machines: 99,450 records stand in memory one behind another, and each is
//! looked at, marked, and put on the list of free ones. There is no list in order, no schedule of timers, and no message.
use std::hint::black_box;
use std::time::Instant;

/// A record as wide as one of a slab over IPv4.
#[derive(Clone, Copy)]
#[allow(dead_code)]
struct Record {
    next: usize,
    state: u64,
    rest: [u64; 8],
}

const COUNT: usize = 99_450;

/// Ends all that are in this state; answers how many.
fn end(records: &mut [Record], state: u64) -> usize {
    let mut free = usize::MAX;
    let mut ended = 0;
    for (place, record) in records.iter_mut().enumerate() {
        if record.state == state {
            record.state = 0;
            record.next = free;
            free = place;
            ended += 1;
        }
    }
    black_box(free);
    ended
}

fn main() {
    let mut least = u128::MAX;
    let mut ended = 0;
    for _ in 0..50 {
        let mut records = black_box(vec![Record { next: 0, state: 1, rest: [7; 8] }; COUNT]);
        let start = Instant::now();
        ended = end(&mut records, black_box(1));
        least = least.min(start.elapsed().as_nanos());
        black_box(&records);
    }
    println!("{ended} records of {} bytes looked at and ended: {} us", size_of::<Record>(), least / 1_000);
}
