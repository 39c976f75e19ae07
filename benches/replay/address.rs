//! Addresses of both families, as the numbers that they spell: their order is that of their bytes.
use std::fmt;
use std::net::{Ipv4Addr, Ipv6Addr};

/// PIM's protocol number.
pub const PIM: u8 = 103;

/// What the addresses of a family have.
pub trait Address: Copy + Ord {
    /// How many bytes an address has.
    const LENGTH: usize;
    /// The family byte of encoded addresses (RFC 7761, 4.9.1).
    const CODE: u8;
    const ALL_PIM_ROUTERS: Self;

    /// The address at the front of the bytes.
    fn take(bytes: &[u8]) -> Self;

    /// The address of a text.
    fn parse(text: &str) -> Option<Self>;

    /// Whether it is a multicast group.
    fn is_group(self) -> bool;

    /// Whether it may be a source: it is neither unspecified nor above the addresses of hosts.
    fn is_source(self) -> bool;

    /// The sum of the words that a message's checksum covers beside the message.
    fn pseudo_header_sum(source: Self, destination: Self, length: usize) -> u64;

    /// Writes its text.
    fn write(self, f: &mut fmt::Formatter<'_>) -> fmt::Result;
}

/// An address as it is told.
#[derive(Clone, Copy)]
pub struct Shown<A>(pub A);

impl<A: Address> fmt::Display for Shown<A> {
    fn fmt(&self, f: &mut fmt::Formatter<'_>) -> fmt::Result {
        self.0.write(f)
    }
}

/// IPv4.
impl Address for u32 {
    const LENGTH: usize = 4;
    const CODE: u8 = 1;
    const ALL_PIM_ROUTERS: u32 = 0xe000_000d;

    fn take(bytes: &[u8]) -> u32 {
        u32::from_be_bytes([bytes[0], bytes[1], bytes[2], bytes[3]])
    }

    fn parse(text: &str) -> Option<u32> {
        text.parse::<Ipv4Addr>().ok().map(u32::from)
    }

    fn is_group(self) -> bool {
        self >> 28 == 0xe
    }

    fn is_source(self) -> bool {
        self != 0 && self < 0xe000_0000
    }

    fn pseudo_header_sum(_source: u32, _destination: u32, _length: usize) -> u64 {
        0
    }

    fn write(self, f: &mut fmt::Formatter<'_>) -> fmt::Result {
        write!(f, "{}", Ipv4Addr::from(self))
    }
}

/// IPv6.
impl Address for u128 {
    const LENGTH: usize = 16;
    const CODE: u8 = 2;
    const ALL_PIM_ROUTERS: u128 = 0xff02 << 112 | 0xd;

    fn take(bytes: &[u8]) -> u128 {
        let mut octets = [0; 16];
        octets.copy_from_slice(&bytes[..16]);
        u128::from_be_bytes(octets)
    }

    fn parse(text: &str) -> Option<u128> {
        text.parse::<Ipv6Addr>().ok().map(u128::from)
    }

    fn is_group(self) -> bool {
        self >> 120 == 0xff
    }

    fn is_source(self) -> bool {
        self != 0 && !self.is_group()
    }

    fn pseudo_header_sum(source: u128, destination: u128, length: usize) -> u64 {
        let segments = [source, destination].map(|address| Ipv6Addr::from(address).segments());
        let words = segments.into_iter().flatten().map(u64::from);
        words.sum::<u64>() + length as u64 + u64::from(PIM)
    }

    fn write(self, f: &mut fmt::Formatter<'_>) -> fmt::Result {
        let [a, b, c, d, e, g, h, i] = Ipv6Addr::from(self).segments();
        write!(f, "{a:04x}:{b:04x}:{c:04x}:{d:04x}:{e:04x}:{g:04x}:{h:04x}:{i:04x}")
    }
}
