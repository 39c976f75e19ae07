//! Classic pcap files, record by record, and the PIM packets in their frames.
use crate::address::PIM;
use crate::fault::CaptureFault;
use std::io::{ErrorKind, Read};

/// No record has more bytes.
const MOST_CAPTURED: u32 = 262_144;

/// A PIM packet as it lies in a record.
pub struct Packet<'a> {
    pub source: &'a [u8],
    pub destination: &'a [u8],
    pub message: &'a [u8],
}

/// A record: its time in milliseconds, and its packet if it holds one.
pub struct Record<'a> {
    pub millis: u64,
    pub packet: Option<Packet<'a>>,
}

#[derive(Clone, Copy)]
enum Link {
    Ethernet,
    Raw,
}

#[derive(Clone, Copy)]
struct Format {
    is_big: bool,
    per_millisecond: u32,
    link: Link,
}

impl Format {
    fn number(self, bytes: &[u8], at: usize) -> u32 {
        let number = [bytes[at], bytes[at + 1], bytes[at + 2], bytes[at + 3]];
        if self.is_big {
            u32::from_be_bytes(number)
        } else {
            u32::from_le_bytes(number)
        }
    }

    fn read(header: &[u8; 24]) -> Result<Format, CaptureFault> {
        let magic = [header[0], header[1], header[2], header[3]];
        let (is_big, per_millisecond) = match magic {
            [0xa1, 0xb2, 0xc3, 0xd4] => (true, 1_000),
            [0xd4, 0xc3, 0xb2, 0xa1] => (false, 1_000),
            [0xa1, 0xb2, 0x3c, 0x4d] => (true, 1_000_000),
            [0x4d, 0x3c, 0xb2, 0xa1] => (false, 1_000_000),
            _ => return Err(CaptureFault::Magic),
        };
        let format = Format { is_big, per_millisecond, link: Link::Raw };
        match format.number(header, 20) & 0xffff {
            1 => Ok(Format { link: Link::Ethernet, ..format }),
            101 => Ok(format),
            _ => Err(CaptureFault::LinkType),
        }
    }
}

/// A capture of which some records were read.
pub struct Capture<R> {
    reader: R,
    format: Format,
    frame: Vec<u8>,
}

/// Fills the buffer as far as the reader goes, and answers how far that is.
fn fill(reader: &mut impl Read, buffer: &mut [u8]) -> Result<usize, CaptureFault> {
    let mut filled = 0;
    while filled < buffer.len() {
        match reader.read(&mut buffer[filled..]) {
            Ok(0) => break,
            Ok(count) => filled += count,
            Err(fault) if fault.kind() == ErrorKind::Interrupted => {}
            Err(_) => return Err(CaptureFault::Read),
        }
    }
    Ok(filled)
}

impl<R: Read> Capture<R> {
    pub fn new(mut reader: R) -> Result<Self, CaptureFault> {
        let mut header = [0; 24];
        if fill(&mut reader, &mut header)? < 24 {
            return Err(CaptureFault::Truncated);
        }
        Ok(Capture { reader, format: Format::read(&header)?, frame: Vec::new() })
    }

    /// The next record, if there is one.
    pub fn next(&mut self) -> Result<Option<Record<'_>>, CaptureFault> {
        let mut header = [0; 16];
        match fill(&mut self.reader, &mut header)? {
            0 => return Ok(None),
            16 => {}
            _ => return Err(CaptureFault::Truncated),
        }
        let length = self.format.number(&header, 8);
        if length > MOST_CAPTURED {
            return Err(CaptureFault::TooLong);
        }
        let length = length as usize;
        self.frame.resize(length, 0);
        if fill(&mut self.reader, &mut self.frame)? < length {
            return Err(CaptureFault::Truncated);
        }
        let seconds = self.format.number(&header, 0);
        let fraction = self.format.number(&header, 4) / self.format.per_millisecond;
        let millis = u64::from(seconds) * 1_000 + u64::from(fraction);
        let packet = match self.format.link {
            Link::Ethernet => in_ethernet(&self.frame),
            Link::Raw => in_raw(&self.frame),
        };
        Ok(Some(Record { millis, packet }))
    }
}

fn word(bytes: &[u8], at: usize) -> u16 {
    u16::from_be_bytes([bytes[at], bytes[at + 1]])
}

/// The packet in an Ethernet frame, of which one 802.1Q tag is passed over.
fn in_ethernet(frame: &[u8]) -> Option<Packet<'_>> {
    if frame.len() < 14 {
        return None;
    }
    let start = if word(frame, 12) == 0x8100 { 18 } else { 14 };
    let packet = frame.get(start..)?;
    match word(frame, start - 2) {
        0x0800 => in_v4(packet),
        0x86dd => in_v6(packet),
        _ => None,
    }
}

/// The packet in a frame that begins with an IP header.
fn in_raw(frame: &[u8]) -> Option<Packet<'_>> {
    match frame.first()? >> 4 {
        4 => in_v4(frame),
        6 => in_v6(frame),
        _ => None,
    }
}

fn in_v4(packet: &[u8]) -> Option<Packet<'_>> {
    if packet.len() < 20 {
        return None;
    }
    let header = 4 * usize::from(packet[0] & 0x0f);
    let total = usize::from(word(packet, 2));
    let is_sound = packet[0] >> 4 == 4 && header >= 20 && total >= header;
    let is_fragment = word(packet, 6) & 0x3fff != 0;
    if !is_sound || packet[9] != PIM || is_fragment {
        return None;
    }
    Some(Packet { source: &packet[12..16], destination: &packet[16..20], message: packet.get(header..total)? })
}

fn in_v6(packet: &[u8]) -> Option<Packet<'_>> {
    if packet.len() < 40 || packet[0] >> 4 != 6 || packet[6] != PIM {
        return None;
    }
    let end = 40 + usize::from(word(packet, 4));
    Some(Packet { source: &packet[8..24], destination: &packet[24..40], message: packet.get(40..end)? })
}
