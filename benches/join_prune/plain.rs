//! The same bodies and the same steps as `src/main.rt`, in plain Rust.

use std::time::Instant;

const FRONT: [u8; 18] = [1, 0, 10, 0, 0, 2, 0, 1, 0, 210, 1, 0, 0, 32, 239, 1, 1, 1];
const SOURCE: u8 = 4;
const RPT: u8 = 5;

trait Family {
    type Addr: Copy + Ord;
    const LEN: usize;
    const FULL: u8;
    const AFI: u8;
    fn take(bytes: &[u8]) -> Self::Addr;
    fn is_group(address: Self::Addr) -> bool;
    fn is_source(address: Self::Addr) -> bool;
}

struct V4;

impl Family for V4 {
    type Addr = [u8; 4];
    const LEN: usize = 4;
    const FULL: u8 = 32;
    const AFI: u8 = 1;
    fn take(bytes: &[u8]) -> [u8; 4] {
        bytes[..4].try_into().unwrap()
    }
    fn is_group(address: [u8; 4]) -> bool {
        address[0] >= 224 && address[0] < 240
    }
    fn is_source(address: [u8; 4]) -> bool {
        address[0] < 224 && address != [0; 4]
    }
}

#[derive(Clone, Copy, PartialEq)]
enum Entry<A> {
    Star(A),
    Source(A),
    Rpt(A),
}

#[derive(Clone, Copy)]
enum Kind {
    Short,
    Family,
    Encoding,
    Mask,
    NotGroup,
    Flags,
    NotSource,
    SecondStar,
    BothLists,
    Trailing,
}

struct Fault {
    #[allow(dead_code)]
    at: usize,
    #[allow(dead_code)]
    kind: Kind,
}

fn masked<F: Family>(bytes: &[u8]) -> Result<(u8, F::Addr), Kind> {
    if bytes.len() < 4 + F::LEN {
        return Err(Kind::Short);
    }
    if bytes[0] != F::AFI {
        return Err(Kind::Family);
    }
    if bytes[1] != 0 {
        return Err(Kind::Encoding);
    }
    if bytes[3] != F::FULL {
        return Err(Kind::Mask);
    }
    Ok((bytes[2], F::take(&bytes[4..])))
}

/// What kinds of sources a list has.
#[derive(Clone, Copy, Default)]
struct Kinds {
    star: bool,
    source: bool,
    rpt: bool,
}

fn entry<F: Family>(bytes: &[u8], kinds: &mut Kinds) -> Result<(), Kind> {
    let (flags, address) = masked::<F>(bytes)?;
    if flags & 3 == 2 {
        return Err(Kind::Flags);
    }
    if !F::is_source(address) {
        return Err(Kind::NotSource);
    }
    match flags & 3 {
        0 => kinds.source = true,
        1 => kinds.rpt = true,
        _ => {
            if kinds.star {
                return Err(Kind::SecondStar);
            }
            kinds.star = true;
        }
    }
    Ok(())
}

fn entry_of<F: Family>(bytes: &[u8]) -> Entry<F::Addr> {
    let address = F::take(&bytes[4..]);
    match bytes[2] & 3 {
        3 => Entry::Star(address),
        1 => Entry::Rpt(address),
        _ => Entry::Source(address),
    }
}

fn list<F: Family>(at: usize, count: usize, bytes: &[u8], kinds: &mut Kinds) -> Result<(), Fault> {
    let size = 4 + F::LEN;
    let mut rest = bytes;
    for i in 0..count {
        entry::<F>(rest, kinds).map_err(|kind| Fault { at: at + i * size, kind })?;
        rest = &rest[size..];
    }
    Ok(())
}

/// The plain way: each pruned entry is looked for among the joined ones.
fn clash<F: Family>(at: usize, joined: &[u8], pruned: &[u8]) -> Result<(), Fault> {
    let size = 4 + F::LEN;
    for (i, this) in pruned.chunks_exact(size).enumerate() {
        let kind = this[2] & 3;
        let address = F::take(&this[4..]);
        if kind != 3 && joined.chunks_exact(size).any(|that| that[2] & 3 == kind && F::take(&that[4..]) == address) {
            return Err(Fault { at: at + i * size, kind: Kind::BothLists });
        }
    }
    Ok(())
}

fn set<F: Family>(at: usize, bytes: &[u8]) -> Result<&[u8], Fault> {
    let size = 4 + F::LEN;
    let (_, group) = masked::<F>(bytes).map_err(|kind| Fault { at, kind })?;
    if !F::is_group(group) {
        return Err(Fault { at, kind: Kind::NotGroup });
    }
    let counts = &bytes[size..];
    if counts.len() < 4 {
        return Err(Fault { at: at + size, kind: Kind::Short });
    }
    let joined_count = u16::from_be_bytes([counts[0], counts[1]]) as usize;
    let pruned_count = u16::from_be_bytes([counts[2], counts[3]]) as usize;
    let joined = &counts[4..];
    let mut joined_kinds = Kinds::default();
    list::<F>(at + size + 4, joined_count, joined, &mut joined_kinds)?;
    let pruned = &joined[joined_count * size..];
    let at = at + size + 4 + joined_count * size;
    let mut pruned_kinds = Kinds { star: joined_kinds.star, ..Kinds::default() };
    list::<F>(at, pruned_count, pruned, &mut pruned_kinds)?;
    if joined_kinds.source && pruned_kinds.source || joined_kinds.rpt && pruned_kinds.rpt {
        clash::<F>(at, &joined[..joined_count * size], &pruned[..pruned_count * size])?;
    }
    Ok(&pruned[pruned_count * size..])
}

struct View<'a> {
    body: &'a [u8],
}

fn read_body<F: Family>(body: &[u8]) -> Result<View<'_>, Fault> {
    let size = 2 + F::LEN;
    if body.len() < size {
        return Err(Fault { at: 0, kind: Kind::Short });
    }
    if body[0] != F::AFI {
        return Err(Fault { at: 0, kind: Kind::Family });
    }
    if body[1] != 0 {
        return Err(Fault { at: 0, kind: Kind::Encoding });
    }
    let head = &body[size..];
    if head.len() < 4 {
        return Err(Fault { at: size, kind: Kind::Short });
    }
    let mut left = &head[4..];
    for _ in 0..head[1] {
        left = set::<F>(body.len() - left.len(), left)?;
    }
    if !left.is_empty() {
        return Err(Fault { at: body.len() - left.len(), kind: Kind::Trailing });
    }
    Ok(View { body })
}

struct List {
    count: u16,
    flags: u8,
    others: u8,
    first: u32,
}

fn push_list(list: &List, body: &mut Vec<u8>) {
    let mut source = list.first;
    for _ in 0..list.count {
        let flags = if source & 0x8000_0000 != 0 { list.others } else { list.flags };
        body.extend_from_slice(&[1, 0, flags, 32]);
        let address = (source & 0x7fff_ffff).wrapping_add(0x0100_0000);
        body.extend_from_slice(&address.to_be_bytes());
        source = source.wrapping_mul(0x0019_660d).wrapping_add(0x3c6e_f35f);
    }
}

fn read(body: &mut [u8], times: u32) -> u64 {
    let mut sum = 0u64;
    for time in 0..times {
        body[8] = time as u8;
        if let Ok(view) = read_body::<V4>(body) {
            sum = sum.wrapping_add(u64::from(view.body[7]));
        }
    }
    sum
}

fn number_of(entry: Entry<[u8; 4]>) -> u64 {
    match entry {
        Entry::Star(a) => u64::from(u32::from_be_bytes(a)) & 0xff,
        Entry::Source(a) => u64::from(u32::from_be_bytes(a)) & 0xffff,
        Entry::Rpt(a) => u64::from(u32::from_be_bytes(a)) & 0xff_ffff,
    }
}

fn walk(view: &View) -> u64 {
    let mut sum = 0u64;
    let mut left = &view.body[10..];
    for _ in 0..view.body[7] {
        let counts = &left[8..];
        let joined_count = u16::from_be_bytes([counts[0], counts[1]]) as usize;
        let pruned_count = u16::from_be_bytes([counts[2], counts[3]]) as usize;
        let (joined, behind) = counts[4..].split_at(joined_count * 8);
        let (pruned, after) = behind.split_at(pruned_count * 8);
        for bytes in joined.chunks_exact(8) {
            sum = sum.wrapping_add(number_of(entry_of::<V4>(bytes)));
        }
        for bytes in pruned.chunks_exact(8) {
            sum = sum.wrapping_add(number_of(entry_of::<V4>(bytes)));
        }
        left = after;
    }
    sum
}

fn walks(body: &[u8], times: u32) -> u64 {
    let mut sum = 0u64;
    let Ok(view) = read_body::<V4>(body) else {
        return 0;
    };
    for _ in 0..times {
        sum = sum.rotate_left(1) ^ walk(&view);
    }
    sum
}

fn tell(name: &str, joined: List, pruned: List, rounds: u32) {
    let mut body = FRONT.to_vec();
    body.extend_from_slice(&joined.count.to_be_bytes());
    body.extend_from_slice(&pruned.count.to_be_bytes());
    push_list(&joined, &mut body);
    push_list(&pruned, &mut body);
    let entries = u32::from(joined.count) + u32::from(pruned.count);
    let times = rounds / (entries + 1) + 1;
    let all = f64::from(entries) * f64::from(times);
    let start = Instant::now();
    let sets = read(&mut body, times);
    let reading = start.elapsed().as_nanos() as f64 / all;
    let start = Instant::now();
    let sum = walks(&body, times);
    let walking = start.elapsed().as_nanos() as f64 / all;
    println!("{name}: read {reading:.1} ns, walk {walking:.1} ns an entry ({sets} {sum})");
}

fn main() {
    let list = |count, flags, first| List { count, flags, others: flags, first };
    let mixed = |count, first| List { count, flags: SOURCE, others: RPT, first };
    let none = || list(0, SOURCE, 0);
    let rounds = 1_000_000;
    tell("91 joined", list(91, SOURCE, 1), none(), rounds);
    tell("91 joined, 91 rpt pruned", list(91, SOURCE, 1), list(91, RPT, 1), rounds);
    tell("8187 joined", list(8187, SOURCE, 1), none(), rounds);
    tell("4093 joined, 4094 rpt pruned", list(4093, SOURCE, 1), list(4094, RPT, 1), rounds);
    tell("4093 joined, 4094 pruned", list(4093, SOURCE, 1), list(4094, SOURCE, 2), rounds);
    tell("7600 joined, 587 pruned", list(7600, SOURCE, 1), list(587, SOURCE, 2), rounds);
    tell("587 joined, 7600 pruned", list(587, SOURCE, 1), list(7600, SOURCE, 2), rounds);
    tell("16 joined, 8171 pruned", list(16, SOURCE, 1), list(8171, SOURCE, 2), rounds);
    tell("4093 joined, 4094 pruned, mixed", mixed(4093, 1), mixed(4094, 2), rounds);
}
