//! The header that every PIM message begins with (RFC 7761, 4.9).
use crate::address::Address;
use crate::fault::Malformed;

/// What a message carries behind its header.
pub enum Body<'a> {
    Hello(&'a [u8]),
    JoinPrune(&'a [u8]),
    Other(u8),
}

/// The sum of the words of 16 bits, up to multiples of 65,535: words of 32 bits leave the same.
fn sum(bytes: &[u8]) -> u64 {
    let (words, rest) = bytes.as_chunks::<4>();
    let sum: u64 = words.iter().map(|word| u64::from(u32::from_be_bytes(*word))).sum();
    let mut last = [0; 4];
    last[..rest.len()].copy_from_slice(rest);
    sum + u64::from(u32::from_be_bytes(last))
}

/// Whether the message sums rightly with its checksum.
fn sums_rightly<A: Address>(source: A, destination: A, message: &[u8]) -> bool {
    let sum = A::pseudo_header_sum(source, destination, message.len()) + sum(message);
    sum > 0 && sum.is_multiple_of(0xffff)
}

/// Opens a message. The type decides whether anything else is looked at.
pub fn open<A: Address>(source: A, destination: A, message: &[u8]) -> Result<Body<'_>, Malformed> {
    let [first, _, _, _, body @ ..] = message else {
        return Err(Malformed::FrameShort);
    };
    let (version, message_type) = (first >> 4, first & 0x0f);
    if version != 2 {
        return Err(Malformed::FrameVersion(version));
    }
    if message_type != 0 && message_type != 3 {
        return Ok(Body::Other(message_type));
    }
    if !sums_rightly(source, destination, message) {
        return Err(Malformed::FrameChecksum);
    }
    if destination != A::ALL_PIM_ROUTERS {
        return Err(Malformed::NotAllRouters);
    }
    Ok(if message_type == 0 { Body::Hello(body) } else { Body::JoinPrune(body) })
}
