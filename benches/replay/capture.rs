//! Writes a capture that a replay is measured with, a classic pcap file of the Ethernet frames on one port:
//!
//!     capture PACKETS FILE [STATES [turns|bursts [4|6]]]
//!
//! Eight neighbours send a Hello each 30 s. Each of them joins 10 sources of each group by messages that are spread
//! over 60 s and then come again: 87 sources a message over IPv4 and 60 over IPv6. STATES is the number of sources in
//! all, 10,000 unless given. PACKETS of these messages are written, with the Hellos that come between them: the
//! neighbours take turns, or each sends all its messages in one burst. All go to the router at 10.0.0.2 or fe80::2.
use std::env;
use std::fs::File;
use std::io::{self, BufWriter, Write};
use std::net::{Ipv4Addr, Ipv6Addr};
use std::ops::Range;
use std::process::ExitCode;

const NEIGHBOURS: u32 = 8;
/// The number of sources of a group.
const SOURCES: u32 = 10;
/// From one refresh of a source to the next, in microseconds.
const REFRESH: u64 = 60_000_000;
const HELLO_PERIOD: u64 = 30_000_000;
/// When the first packet was captured, in seconds since 1970.
const BEGIN: u64 = 1_700_000_000;
/// What Join/Prune messages ask to be held, in seconds: 3.5 times the refresh.
const HOLDTIME: u16 = 210;
/// The IP protocol number of PIM.
const PIM: u8 = 103;

#[derive(Clone, Copy)]
enum Family {
    V4,
    V6,
}

impl Family {
    /// The address of an IPv4 host, or of IPv6 with the prefix of these 16 bits.
    fn address(self, prefix: u16, v4: u32) -> Vec<u8> {
        match self {
            Family::V4 => Ipv4Addr::from(v4).octets().to_vec(),
            Family::V6 => Ipv6Addr::from(u128::from(prefix) << 112 | u128::from(v4)).octets().to_vec(),
        }
    }

    fn router(self) -> Vec<u8> {
        match self {
            Family::V4 => vec![10, 0, 0, 2],
            Family::V6 => self.address(0xfe80, 2),
        }
    }

    fn all_routers(self) -> Vec<u8> {
        match self {
            Family::V4 => vec![224, 0, 0, 13],
            Family::V6 => self.address(0xff02, 0xd),
        }
    }

    fn neighbour(self, number: u32) -> Vec<u8> {
        self.address(0xfe80, 0x0a00_000b + number)
    }

    fn group(self, state: u32) -> Vec<u8> {
        self.address(0xff0e, 0xef01_0000 + state / SOURCES)
    }

    fn source(self, state: u32) -> Vec<u8> {
        self.address(0x2001, 0x0a40_0000 + state)
    }

    /// The family byte of encoded addresses (RFC 7761, 4.9.1).
    fn number(self) -> u8 {
        match self {
            Family::V4 => 1,
            Family::V6 => 2,
        }
    }

    /// The mask length of one host.
    fn host_mask(self) -> u8 {
        match self {
            Family::V4 => 32,
            Family::V6 => 128,
        }
    }

    /// How many sources a message has, but for the last one of a neighbour.
    fn share(self) -> u32 {
        match self {
            Family::V4 => 87,
            Family::V6 => 60,
        }
    }
}

/// What the capture has.
struct Plan {
    family: Family,
    states: u32,
    bursts: bool,
}

impl Plan {
    /// How many messages of a neighbour have all the sources.
    fn messages(&self) -> u32 {
        self.states.div_ceil(self.family.share())
    }

    /// The neighbour that sends the message of this number in a refresh, and the message's number among its own.
    fn turn(&self, number: u32) -> (u32, u32) {
        if self.bursts {
            (number / self.messages(), number % self.messages())
        } else {
            (number % NEIGHBOURS, number / NEIGHBOURS)
        }
    }
}

/// The sum of 16-bit words.
fn sum_of(bytes: &[u8]) -> u32 {
    bytes.chunks(2).map(|word| u32::from(word[0]) << 8 | u32::from(*word.get(1).unwrap_or(&0))).sum()
}

/// Puts the checksum that makes this sum of words whole.
fn put_checksum(sum: u32, bytes: &mut [u8], at: usize) {
    let folded = (sum & 0xffff) + (sum >> 16);
    let checksum = !((folded & 0xffff) + (folded >> 16)) as u16;
    bytes[at..at + 2].copy_from_slice(&checksum.to_be_bytes());
}

/// The PIM message of this type from this neighbour, with its checksum.
fn message(family: Family, from: u32, message_type: u8, body: &[u8]) -> Vec<u8> {
    let mut message = vec![0x20 | message_type, 0, 0, 0];
    message.extend_from_slice(body);
    let pseudo_header = match family {
        Family::V4 => 0,
        Family::V6 => {
            sum_of(&family.neighbour(from)) + sum_of(&family.all_routers()) + message.len() as u32 + u32::from(PIM)
        }
    };
    put_checksum(sum_of(&message) + pseudo_header, &mut message, 2);
    message
}

/// The body of a Hello: Holdtime of 105 s, LAN Prune Delay of 500 and 2,500 ms, DR Priority and Generation ID.
fn hello(number: u32) -> Vec<u8> {
    let mut body = vec![0, 1, 0, 2, 0, 105, 0, 2, 0, 4, 1, 0xf4, 9, 0xc4, 0, 19, 0, 4, 0, 0, 0, 1, 0, 20, 0, 4];
    body.extend_from_slice(&(0x5eed_0000 + number).to_be_bytes());
    body
}

/// The set of one group, of which these states are joined.
fn push_set(family: Family, states: Range<u32>, body: &mut Vec<u8>) {
    body.extend_from_slice(&[family.number(), 0, 0, family.host_mask()]);
    body.extend_from_slice(&family.group(states.start));
    body.extend_from_slice(&(states.len() as u16).to_be_bytes());
    body.extend_from_slice(&[0, 0]);
    for state in states {
        body.extend_from_slice(&[family.number(), 0, 4, family.host_mask()]);
        body.extend_from_slice(&family.source(state));
    }
}

/// The body of the Join/Prune of this number among a neighbour's messages.
fn join(plan: &Plan, number: u32) -> Vec<u8> {
    let family = plan.family;
    let first = number * family.share();
    let end = (first + family.share()).min(plan.states);
    let (first_group, last_group) = (first / SOURCES, (end - 1) / SOURCES);
    let mut body = vec![family.number(), 0];
    body.extend_from_slice(&family.router());
    body.extend_from_slice(&[0, (last_group - first_group + 1) as u8]);
    body.extend_from_slice(&HOLDTIME.to_be_bytes());
    for group in first_group..=last_group {
        let states = group * SOURCES..(group + 1) * SOURCES;
        push_set(family, states.start.max(first)..states.end.min(end), &mut body);
    }
    body
}

/// The header of an IPv4 packet with a message of this length.
fn ipv4_header(from: u32, length: usize) -> Vec<u8> {
    let mut header = vec![0x45, 0xc0];
    header.extend_from_slice(&(20 + length as u16).to_be_bytes());
    header.extend_from_slice(&[0, 0, 0, 0, 1, PIM, 0, 0]);
    header.extend_from_slice(&Family::V4.neighbour(from));
    header.extend_from_slice(&Family::V4.all_routers());
    put_checksum(sum_of(&header), &mut header, 10);
    header
}

/// The header of an IPv6 packet with a message of this length.
fn ipv6_header(from: u32, length: usize) -> Vec<u8> {
    let mut header = vec![0x60, 0, 0, 0];
    header.extend_from_slice(&(length as u16).to_be_bytes());
    header.extend_from_slice(&[PIM, 1]);
    header.extend_from_slice(&Family::V6.neighbour(from));
    header.extend_from_slice(&Family::V6.all_routers());
    header
}

/// The Ethernet frame of a packet with this message.
fn frame(family: Family, from: u32, message: &[u8]) -> Vec<u8> {
    let (group_mac, type_number, header) = match family {
        Family::V4 => ([1, 0, 0x5e, 0, 0, 13], [8, 0], ipv4_header(from, message.len())),
        Family::V6 => ([0x33, 0x33, 0, 0, 0, 13], [0x86, 0xdd], ipv6_header(from, message.len())),
    };
    let mut frame = group_mac.to_vec();
    frame.extend_from_slice(&[2, 0, 0, 0, 0, from as u8]);
    frame.extend_from_slice(&type_number);
    frame.extend_from_slice(&header);
    frame.extend_from_slice(message);
    frame
}

/// Writes the record of a message that was captured at this time after the first, in microseconds.
fn write_record(family: Family, at: u64, from: u32, message: &[u8], out: &mut impl Write) -> io::Result<()> {
    let frame = frame(family, from, message);
    let seconds = (BEGIN + at / 1_000_000) as u32;
    let fraction = (at % 1_000_000) as u32;
    let length = frame.len() as u32;
    for number in [seconds, fraction, length, length] {
        out.write_all(&number.to_le_bytes())?;
    }
    out.write_all(&frame)
}

/// Writes the Hellos that are sent from one moment up to another, in microseconds.
fn write_hellos(family: Family, from: u64, to: u64, out: &mut impl Write) -> io::Result<()> {
    let each = HELLO_PERIOD / u64::from(NEIGHBOURS);
    for turn in from.div_ceil(each)..to.div_ceil(each) {
        let number = (turn % u64::from(NEIGHBOURS)) as u32;
        write_record(family, turn * each, number, &message(family, number, 0, &hello(number)), out)?;
    }
    Ok(())
}

/// Writes this number of messages, and the Hellos between them. The first comes when all neighbours have sent a Hello.
fn write_capture(plan: &Plan, packets: u64, out: &mut impl Write) -> io::Result<()> {
    let head: [u32; 6] = [0xa1b2_c3d4, 0x0004_0002, 0, 0, 262_144, 1];
    for number in head {
        out.write_all(&number.to_le_bytes())?;
    }
    let in_refresh = u64::from(NEIGHBOURS * plan.messages());
    let mut hellos_until = 0;
    for packet in 0..packets {
        let at = HELLO_PERIOD + packet * REFRESH / in_refresh;
        write_hellos(plan.family, hellos_until, at, out)?;
        hellos_until = at;
        let (from, number) = plan.turn((packet % in_refresh) as u32);
        write_record(plan.family, at, from, &message(plan.family, from, 3, &join(plan, number)), out)?;
    }
    out.flush()
}

/// What these words ask for: the plan, the number of messages, and the file.
fn read_words(words: &[String]) -> Option<(Plan, u64, &str)> {
    let packets = words.first()?.parse().ok()?;
    let file = words.get(1)?;
    let states = words.get(2).map_or(Some(10_000), |states| states.parse().ok())?;
    let bursts = match words.get(3).map_or("turns", String::as_str) {
        "turns" => false,
        "bursts" => true,
        _ => return None,
    };
    let family = match words.get(4).map_or("4", String::as_str) {
        "4" => Family::V4,
        "6" => Family::V6,
        _ => return None,
    };
    Some((Plan { family, states, bursts }, packets, file))
}

fn main() -> ExitCode {
    let words: Vec<String> = env::args().skip(1).collect();
    let Some((plan, packets, file)) = read_words(&words) else {
        eprintln!("capture PACKETS FILE [STATES [turns|bursts [4|6]]]");
        return ExitCode::from(2);
    };
    let written = File::create(file).and_then(|file| write_capture(&plan, packets, &mut BufWriter::new(file)));
    match written {
        Ok(()) => ExitCode::SUCCESS,
        Err(fault) => {
            eprintln!("capture: {fault}");
            ExitCode::from(2)
        }
    }
}
