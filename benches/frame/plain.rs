//! The same steps in plain Rust, with the checksum summed in words of 32 bits.
use std::hint::black_box;
use std::time::Instant;

const LENGTH: usize = 1480;
const ALL_ROUTERS: [u8; 4] = [224, 0, 0, 13];

fn folded(bytes: &[u8]) -> u16 {
    let mut sum = 0u64;
    let mut words = bytes.chunks_exact(4);
    for word in &mut words {
        sum += u64::from(u32::from_be_bytes([word[0], word[1], word[2], word[3]]));
    }
    for (index, byte) in words.remainder().iter().enumerate() {
        sum += u64::from(*byte) << (24 - 8 * index);
    }
    if sum == 0 { 0 } else { ((sum - 1) % 0xffff + 1) as u16 }
}

fn seal(message: &mut [u8]) {
    message[..4].copy_from_slice(&[0x23, 0, 0, 0]);
    let checksum = !folded(message);
    message[2..4].copy_from_slice(&checksum.to_be_bytes());
}

fn is_sound(destination: [u8; 4], message: &[u8]) -> bool {
    message.len() >= 4 && message[0] == 0x23 && folded(message) == 0xffff && destination == ALL_ROUTERS
}

fn main() {
    let rounds: u32 = std::env::args().nth(1).and_then(|word| word.parse().ok()).unwrap_or(1_000_000);
    let picoseconds = |time: std::time::Duration| time.as_nanos() * 1000 / (u128::from(rounds.max(1)) * (LENGTH as u128 / 4));
    let mut message = [0x5au8; LENGTH];
    let mut sum = 0u64;
    let start = Instant::now();
    for round in 0..rounds {
        message[20] = (round % 251) as u8;
        seal(black_box(&mut message));
        sum += u64::from(message[3]);
    }
    println!("seal {} ps for 4 bytes (sum {sum})", picoseconds(start.elapsed()));
    let mut message = [0x5au8; LENGTH];
    seal(&mut message);
    let mut sound = 0u64;
    let start = Instant::now();
    for round in 0..rounds {
        message[20] = (round % 251) as u8;
        if is_sound(black_box(ALL_ROUTERS), black_box(&message)) {
            sound += 1;
        }
    }
    println!("open {} ps for 4 bytes (sound {sound})", picoseconds(start.elapsed()));
}
