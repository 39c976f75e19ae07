//! Join/Prune messages (RFC 7761, 4.9.5): their first fault, and walks over those without one.
use crate::address::Address;
use crate::fault::{BodyFault, Kind};
use std::marker::PhantomData;

/// An entry of a list, by its flags. That of (*,G) has the RP.
#[derive(Clone, Copy, PartialEq, Eq, PartialOrd, Ord)]
pub enum Entry<A> {
    Star(A),
    Source(A),
    Rpt(A),
}

/// One group with the bytes of its lists.
pub struct Set<'a, A> {
    pub group: A,
    joined: &'a [u8],
    pruned: &'a [u8],
}

/// A message without a fault.
pub struct JoinPrune<'a, A> {
    body: &'a [u8],
    family: PhantomData<A>,
}

const W: u8 = 2;
const R: u8 = 1;

fn word(bytes: &[u8], at: usize) -> u16 {
    u16::from_be_bytes([bytes[at], bytes[at + 1]])
}

/// How many bytes an encoded group or source has.
const fn masked_length<A: Address>() -> usize {
    4 + A::LENGTH
}

/// The entry that these bytes encode, which have no fault.
fn entry_of<A: Address>(bytes: &[u8]) -> Entry<A> {
    let address = A::take(&bytes[4..]);
    match bytes[2] & (W | R) {
        0 => Entry::Source(address),
        R => Entry::Rpt(address),
        _ => Entry::Star(address),
    }
}

fn entries<'a, A: Address + 'a>(list: &'a [u8]) -> impl Iterator<Item = Entry<A>> + 'a {
    list.chunks_exact(masked_length::<A>()).map(entry_of)
}

impl<'a, A: Address + 'a> Set<'a, A> {
    pub fn joined(&self) -> impl Iterator<Item = Entry<A>> + 'a {
        entries(self.joined)
    }

    pub fn pruned(&self) -> impl Iterator<Item = Entry<A>> + 'a {
        entries(self.pruned)
    }

    /// How many entries both lists have.
    pub fn len(&self) -> usize {
        (self.joined.len() + self.pruned.len()) / masked_length::<A>()
    }
}

impl<'a, A: Address + 'a> JoinPrune<'a, A> {
    /// Reads a body, or tells the fault of least offset.
    pub fn read(body: &'a [u8]) -> Result<Self, BodyFault> {
        check_body::<A>(body)?;
        Ok(JoinPrune { body, family: PhantomData })
    }

    pub fn upstream(&self) -> A {
        A::take(&self.body[2..])
    }

    /// How long what is joined or pruned is held, in seconds; 0xffff is for ever.
    pub fn holdtime(&self) -> u16 {
        word(self.body, 4 + A::LENGTH)
    }

    pub fn sets(&self) -> impl Iterator<Item = Set<'a, A>> + use<'a, A> {
        let mut rest = &self.body[6 + A::LENGTH..];
        (0..self.body[3 + A::LENGTH]).map(move |_| {
            let (head, lists) = rest.split_at(8 + A::LENGTH);
            let size = |at| usize::from(word(head, at)) * masked_length::<A>();
            let (joined, behind) = lists.split_at(size(4 + A::LENGTH));
            let (pruned, behind) = behind.split_at(size(6 + A::LENGTH));
            rest = behind;
            Set { group: A::take(&head[4..]), joined, pruned }
        })
    }
}

/// Looks at the family byte and the encoding of an address.
fn check_family<A: Address>(bytes: &[u8]) -> Result<(), Kind> {
    if bytes[0] != A::CODE {
        return Err(Kind::Family);
    }
    if bytes[1] != 0 {
        return Err(Kind::Encoding);
    }
    Ok(())
}

/// Looks at what a group and a source have in common.
fn check_masked<A: Address>(bytes: &[u8]) -> Result<A, Kind> {
    check_family::<A>(bytes)?;
    if usize::from(bytes[3]) != 8 * A::LENGTH {
        return Err(Kind::Mask);
    }
    Ok(A::take(&bytes[4..]))
}

/// Looks at an entry for itself.
fn check_entry<A: Address>(bytes: &[u8]) -> Result<Entry<A>, Kind> {
    let address = check_masked::<A>(bytes)?;
    if bytes[2] & (W | R) == W {
        return Err(Kind::Flags);
    }
    if !address.is_source() {
        return Err(Kind::NotSource);
    }
    Ok(entry_of(bytes))
}

/// What a set has had before the entry that is looked at.
struct Earlier<A> {
    star: bool,
    /// The joined sources, in order, where there are pruned ones to be looked for among them.
    joined: Vec<Entry<A>>,
}

/// A body, of which the first bytes have no fault.
struct Checking<'a> {
    body: &'a [u8],
    at: usize,
}

impl<'a> Checking<'a> {
    fn fault(&self, kind: Kind) -> BodyFault {
        BodyFault { at: self.at, kind }
    }

    /// Looks at a part of so many bytes, and goes on behind it.
    fn part<T>(&mut self, length: usize, check: impl FnOnce(&'a [u8]) -> Result<T, Kind>) -> Result<T, BodyFault> {
        let part = self.body[self.at..].get(..length);
        let told = part.ok_or(Kind::Short).and_then(check).map_err(|kind| self.fault(kind))?;
        self.at += length;
        Ok(told)
    }

    fn list<A: Address>(&mut self, count: u16, earlier: &mut Earlier<A>) -> Result<(), BodyFault> {
        for _ in 0..count {
            self.part(masked_length::<A>(), |bytes| {
                let entry = check_entry::<A>(bytes)?;
                if matches!(entry, Entry::Star(_)) && std::mem::replace(&mut earlier.star, true) {
                    return Err(Kind::SecondStar);
                }
                if earlier.joined.binary_search(&entry).is_ok() {
                    return Err(Kind::BothLists);
                }
                Ok(())
            })?;
        }
        Ok(())
    }

    fn set<A: Address>(&mut self) -> Result<(), BodyFault> {
        self.part(masked_length::<A>(), |bytes| {
            let group = check_masked::<A>(bytes)?;
            if group.is_group() {
                Ok(())
            } else {
                Err(Kind::NotGroup)
            }
        })?;
        let (joined, pruned) = self.part(4, |counts| Ok((word(counts, 0), word(counts, 2))))?;
        let mut earlier: Earlier<A> = Earlier { star: false, joined: Vec::new() };
        let start = self.at;
        self.list(joined, &mut earlier)?;
        if pruned > 0 {
            earlier.joined.extend(entries(&self.body[start..self.at]));
            earlier.joined.sort_unstable();
        }
        self.list(pruned, &mut earlier)
    }
}

/// Looks at a whole body.
fn check_body<A: Address>(body: &[u8]) -> Result<(), BodyFault> {
    let mut checking = Checking { body, at: 0 };
    checking.part(2 + A::LENGTH, check_family::<A>)?;
    let sets = checking.part(4, |head| Ok(head[1]))?;
    for _ in 0..sets {
        checking.set::<A>()?;
    }
    if checking.at < body.len() {
        return Err(checking.fault(Kind::Trailing));
    }
    Ok(())
}
