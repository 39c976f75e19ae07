//! The same steps in plain Rust: collecting what a port wants in one pass over its records, merging the ports, planning
//! the messages and writing them; and writing them straight from the records, with a place for each port.
use std::hint::black_box;
use std::time::Instant;

type Addr = [u8; 4];

const GROUPS: u32 = 1000;
const RP: Addr = [10, 9, 9, 9];
const UPSTREAM: Addr = [10, 0, 0, 2];
const OWN: Addr = [10, 0, 0, 1];
const ROUNDS: u32 = 50;
const BUDGET: usize = 1460;

#[derive(Clone, Copy, PartialEq, Eq)]
enum What {
    Star,
    Source(Addr),
    Rpt(Addr),
}

#[derive(Clone, Copy, PartialEq, Eq)]
#[allow(dead_code)]
enum State {
    Join,
    PrunePending,
    Prune,
}

#[derive(Clone, Copy)]
#[allow(dead_code)]
struct Record {
    port: usize,
    group: Addr,
    what: What,
    state: State,
    expires_at: Option<u64>,
    pending: Option<(u64, bool)>,
}

#[derive(Clone, Copy)]
struct Shape {
    star: bool,
    sources: u32,
    exceptions: u32,
}

/// The records of so many ports, each with every so-manieth source, in key order.
fn records_of(shape: Shape, ports: u32) -> Vec<Record> {
    let mut records = Vec::new();
    for port in 0..ports {
        for group in 0..GROUPS {
            let held = |what, state| Record {
                port: port as usize,
                group: (0xef00_0000 + group).to_be_bytes(),
                what,
                state,
                expires_at: Some(210_000),
                pending: None,
            };
            let address = |number: u32| (0x0b00_0000 + group * 128 + number).to_be_bytes();
            if shape.star {
                records.push(held(What::Star, State::Join));
            }
            for number in (0..shape.sources).filter(|number| number % ports == port) {
                records.push(held(What::Source(address(number)), State::Join));
            }
            for number in (shape.sources..shape.sources + shape.exceptions).filter(|number| number % ports == port) {
                records.push(held(What::Rpt(address(number)), State::Prune));
            }
        }
    }
    records
}

/// A group, and where its sources and its exceptions stand in the row.
#[derive(Clone, Copy)]
struct Place {
    group: Addr,
    starred: bool,
    sources: (usize, usize),
    exceptions: (usize, usize),
}

#[derive(Default)]
struct Form {
    row: Vec<Addr>,
    places: Vec<Place>,
}

impl Form {
    fn push(&mut self, place: Place) {
        if place.starred || place.sources.0 < place.sources.1 {
            self.places.push(place);
        }
    }
}

fn joined(state: State) -> bool {
    matches!(state, State::Join | State::PrunePending)
}

/// What one port wants.
fn collect(records: &[Record]) -> Form {
    let mut form = Form { row: Vec::with_capacity(records.len()), places: Vec::new() };
    let mut open: Option<Place> = None;
    for held in records {
        let mut place = match open {
            Some(place) if place.group == held.group => place,
            other => {
                if let Some(place) = other {
                    form.push(place);
                }
                let here = form.row.len();
                Place { group: held.group, starred: false, sources: (here, here), exceptions: (here, here) }
            }
        };
        match held.what {
            What::Star => place.starred |= joined(held.state),
            What::Source(source) => {
                if joined(held.state) {
                    form.row.push(source);
                    place.sources.1 += 1;
                    place.exceptions = (place.sources.1, place.sources.1);
                }
            }
            What::Rpt(source) => {
                if place.starred && held.state == State::Prune {
                    form.row.push(source);
                    place.exceptions.1 += 1;
                }
            }
        }
        open = Some(place);
    }
    if let Some(place) = open {
        form.push(place);
    }
    form
}

/// The addresses of both, in order, to the end of the row.
fn unite(one: &[Addr], other: &[Addr], row: &mut Vec<Addr>) -> (usize, usize) {
    let start = row.len();
    let (mut i, mut j) = (0, 0);
    while i < one.len() && j < other.len() {
        let (a, b) = (one[i], other[j]);
        row.push(a.min(b));
        i += usize::from(a <= b);
        j += usize::from(b <= a);
    }
    row.extend_from_slice(&one[i..]);
    row.extend_from_slice(&other[j..]);
    (start, row.len())
}

/// The addresses that are in both.
fn meet(one: &[Addr], other: &[Addr], row: &mut Vec<Addr>) -> (usize, usize) {
    let start = row.len();
    let (mut i, mut j) = (0, 0);
    while i < one.len() && j < other.len() {
        let (a, b) = (one[i], other[j]);
        if a == b {
            row.push(a);
        }
        i += usize::from(a <= b);
        j += usize::from(b <= a);
    }
    (start, row.len())
}

fn lists<'a>(form: &'a Form, place: &Place) -> (&'a [Addr], &'a [Addr]) {
    (&form.row[place.sources.0..place.sources.1], &form.row[place.exceptions.0..place.exceptions.1])
}

fn merge(one: &Form, other: &Form) -> Form {
    let mut form = Form {
        row: Vec::with_capacity(one.row.len() + other.row.len()),
        places: Vec::with_capacity(one.places.len() + other.places.len()),
    };
    let (mut i, mut j) = (0, 0);
    let empty = |group| Place { group, starred: false, sources: (0, 0), exceptions: (0, 0) };
    while i < one.places.len() || j < other.places.len() {
        let group = match (one.places.get(i), other.places.get(j)) {
            (Some(a), Some(b)) => a.group.min(b.group),
            (Some(a), None) => a.group,
            (None, Some(b)) => b.group,
            (None, None) => break,
        };
        let take = |form: &Form, place: &mut usize| match form.places.get(*place) {
            Some(found) if found.group == group => {
                *place += 1;
                *found
            }
            _ => empty(group),
        };
        let (a, b) = (take(one, &mut i), take(other, &mut j));
        let ((a_sources, a_rpt), (b_sources, b_rpt)) = (lists(one, &a), lists(other, &b));
        let sources = unite(a_sources, b_sources, &mut form.row);
        let exceptions = match (a.starred, b.starred) {
            (true, true) => meet(a_rpt, b_rpt, &mut form.row),
            (true, false) => unite(a_rpt, &[], &mut form.row),
            _ => unite(b_rpt, &[], &mut form.row),
        };
        form.push(Place { group, starred: a.starred || b.starred, sources, exceptions });
    }
    form
}

fn form_of(records: &[Record], ports: usize) -> Form {
    let mut form = Form::default();
    for port in 0..ports {
        let first = records.partition_point(|held| held.port < port);
        let count = records[first..].partition_point(|held| held.port <= port);
        let other = collect(&records[first..first + count]);
        form = if form.places.is_empty() { other } else { merge(&form, &other) };
    }
    form
}

fn size(groups: usize, entries: usize) -> usize {
    14 + 12 * groups + 8 * entries
}

/// Pieces of the groups, how many stand before the end of each message, and the bytes of each message.
struct Plan {
    pieces: Vec<Place>,
    ends: Vec<usize>,
    sizes: Vec<usize>,
}

fn plan(form: &Form, budget: usize) -> Plan {
    let mut plan = Plan { pieces: Vec::with_capacity(form.places.len()), ends: Vec::new(), sizes: Vec::new() };
    let (mut groups, mut entries) = (0, 0);
    for place in &form.places {
        let mut starred = place.starred;
        let mut left = place.sources;
        let star = usize::from(starred) + place.exceptions.1 - place.exceptions.0;
        while starred || left.0 < left.1 {
            let first = if starred { star } else { 1 };
            if groups == 255 || size(groups + 1, entries + first) > budget {
                plan.ends.push(plan.pieces.len());
                plan.sizes.push(size(groups, entries));
                (groups, entries) = (0, 0);
            }
            groups += 1;
            entries += if starred { star } else { 0 };
            let room = (budget - size(groups, entries)) / 8;
            let count = room.min(left.1 - left.0);
            let exceptions = if starred { place.exceptions } else { (0, 0) };
            plan.pieces.push(Place { group: place.group, starred, sources: (left.0, left.0 + count), exceptions });
            entries += count;
            left.0 += count;
            starred = false;
        }
    }
    if groups > 0 {
        plan.ends.push(plan.pieces.len());
        plan.sizes.push(size(groups, entries));
    }
    plan
}

fn put(flags: u8, address: Addr, bytes: &mut [u8]) {
    bytes[..4].copy_from_slice(&[1, 0, flags, 32]);
    bytes[4..8].copy_from_slice(&address);
}

fn write_set(row: &[Addr], piece: &Place, bytes: &mut [u8]) -> usize {
    let sources = &row[piece.sources.0..piece.sources.1];
    let exceptions = &row[piece.exceptions.0..piece.exceptions.1];
    bytes[..4].copy_from_slice(&[1, 0, 0, 32]);
    bytes[4..8].copy_from_slice(&piece.group);
    let joined = sources.len() + usize::from(piece.starred);
    bytes[8..10].copy_from_slice(&(joined as u16).to_be_bytes());
    bytes[10..12].copy_from_slice(&(exceptions.len() as u16).to_be_bytes());
    let mut at = 12;
    if piece.starred {
        put(7, RP, &mut bytes[at..at + 8]);
        at += 8;
    }
    for (source, place) in sources.iter().zip(bytes[at..].chunks_exact_mut(8)) {
        put(4, *source, place);
    }
    at += 8 * sources.len();
    for (source, place) in exceptions.iter().zip(bytes[at..].chunks_exact_mut(8)) {
        put(5, *source, place);
    }
    at + 8 * exceptions.len()
}

fn sum(bytes: &[u8]) -> u64 {
    let (words, rest) = bytes.as_chunks::<4>();
    let mut sum: u64 = words.iter().map(|word| u64::from(u32::from_be_bytes(*word))).sum();
    let mut last = [0; 4];
    last[..rest.len()].copy_from_slice(rest);
    sum += u64::from(u32::from_be_bytes(last));
    while sum > 0xffff {
        sum = (sum & 0xffff) + (sum >> 16);
    }
    sum
}

fn write(row: &[Addr], pieces: &[Place], bytes: &mut [u8]) {
    bytes[..4].copy_from_slice(&[0x23, 0, 0, 0]);
    bytes[4..6].copy_from_slice(&[1, 0]);
    bytes[6..10].copy_from_slice(&UPSTREAM);
    bytes[10..14].copy_from_slice(&[0, pieces.len() as u8, 0, 210]);
    let mut at = 14;
    for piece in pieces {
        at += write_set(row, piece, &mut bytes[at..]);
    }
    black_box(OWN);
    let checksum = !(sum(bytes) as u16);
    bytes[2..4].copy_from_slice(&checksum.to_be_bytes());
}

fn pack(form: &Form, budget: usize) -> (Vec<u8>, Vec<usize>) {
    let fits = |place: &Place| !place.starred || size(1, 1 + place.exceptions.1 - place.exceptions.0) <= budget;
    assert!(form.places.iter().all(fits));
    let plan = plan(form, budget);
    let mut bytes = vec![0; plan.sizes.iter().sum()];
    let (mut start, mut first) = (0, 0);
    for (end, size) in plan.ends.iter().zip(&plan.sizes) {
        write(&form.row, &plan.pieces[first..*end], &mut bytes[start..start + size]);
        (start, first) = (start + size, *end);
    }
    (bytes, plan.ends)
}

/// The records, and where those of each port that aren't passed begin and end.
#[derive(Clone)]
struct Walk<'a> {
    records: &'a [Record],
    at: [usize; 64],
    ends: [usize; 64],
    ports: usize,
}

impl<'a> Walk<'a> {
    fn new(records: &'a [Record], ports: usize) -> Self {
        let mut walk = Walk { records, at: [0; 64], ends: [0; 64], ports };
        for port in 0..ports {
            walk.at[port] = records.partition_point(|held| held.port < port);
            walk.ends[port] = records.partition_point(|held| held.port <= port);
        }
        walk
    }

    /// The next record of the port, if it is of this group.
    fn next_of(&self, port: usize, group: Addr) -> Option<&'a Record> {
        let held = self.records[..self.ends[port]].get(self.at[port])?;
        (held.group == group).then_some(held)
    }

    fn least_group(&self) -> Option<Addr> {
        let left = (0..self.ports).filter(|port| self.at[*port] < self.ends[*port]);
        left.map(|port| self.records[self.at[port]].group).min()
    }

    /// Passes what is left of the group.
    fn pass(&mut self, group: Addr) {
        for port in 0..self.ports {
            let left = &self.records[self.at[port]..self.ends[port]];
            self.at[port] += left.partition_point(|held| held.group <= group);
        }
    }

    /// Passes the stars of the group, and answers which ports have one in Join or Prune-Pending.
    fn pass_stars(&mut self, group: Addr) -> u64 {
        let mut starred = 0;
        for port in 0..self.ports {
            if let Some(held) = self.next_of(port, group).filter(|held| held.what == What::Star) {
                starred |= u64::from(joined(held.state)) << port;
                self.at[port] += 1;
            }
        }
        starred
    }

    fn least_source(&self, group: Addr) -> Option<Addr> {
        let mut least: Option<Addr> = None;
        for port in 0..self.ports {
            if let Some(&Record { what: What::Source(source), .. }) = self.next_of(port, group) {
                least = Some(least.map_or(source, |other| other.min(source)));
            }
        }
        least
    }

    fn pass_source(&mut self, group: Addr, source: Addr) {
        for port in 0..self.ports {
            if self.next_of(port, group).is_some_and(|held| held.what == What::Source(source)) {
                self.at[port] += 1;
            }
        }
    }

    /// The next exception: a source that the first of the starred ports holds back, and each other one too.
    fn next_exception(&mut self, group: Addr, starred: u64) -> Option<Addr> {
        let first = starred.trailing_zeros() as usize;
        while let Some(held) = self.next_of(first, group) {
            self.at[first] += 1;
            let What::Rpt(source) = held.what else { continue };
            let mut held_back = held.state == State::Prune;
            for port in first + 1..self.ports {
                held_back &= starred >> port & 1 == 0 || self.holds_back(port, group, source);
            }
            if held_back {
                return Some(source);
            }
        }
        None
    }

    /// Whether the port holds this source back; what stands before it is passed.
    fn holds_back(&mut self, port: usize, group: Addr, source: Addr) -> bool {
        while let Some(held) = self.next_of(port, group) {
            match held.what {
                What::Rpt(other) if other == source => return held.state == State::Prune,
                What::Rpt(other) if other > source => return false,
                _ => self.at[port] += 1,
            }
        }
        false
    }

    fn exception_count(&self, group: Addr, starred: u64) -> usize {
        let mut walk = self.clone();
        let mut count = 0;
        while starred > 0 && walk.next_exception(group, starred).is_some() {
            count += 1;
        }
        count
    }
}

/// The upstream neighbour of an address: that of the last row that begins at or before it.
fn via(table: &[(Addr, Addr)], address: Addr) -> Option<Addr> {
    Some(table[table.partition_point(|row| row.0 <= address).checked_sub(1)?].1)
}

/// A message that is being made in a buffer, and how many went out, each behind its length.
struct Draft {
    bytes: Vec<u8>,
    groups: usize,
    end: usize,
    messages: usize,
}

impl Draft {
    fn room(&self) -> usize {
        if self.groups == 255 { 0 } else { BUDGET.saturating_sub(self.end + 12) / 8 }
    }

    fn send(&mut self) {
        if self.groups > 0 {
            let message = &mut self.bytes[..self.end];
            message[..6].copy_from_slice(&[0x23, 0, 0, 0, 1, 0]);
            message[6..10].copy_from_slice(&UPSTREAM);
            message[10..14].copy_from_slice(&[0, self.groups as u8, 0, 210]);
            let checksum = !(sum(message) as u16);
            message[2..4].copy_from_slice(&checksum.to_be_bytes());
            black_box((message.len() as u16).to_be_bytes());
            black_box(&*message);
            self.messages += 1;
        }
        (self.groups, self.end) = (0, 14);
    }
}

/// How many (S,G,rpt) machines each port has, as a router knows it.
fn rpts_of(records: &[Record]) -> [usize; 64] {
    let mut rpts = [0; 64];
    for held in records {
        rpts[held.port] += usize::from(matches!(held.what, What::Rpt(_)));
    }
    rpts
}

/// Writes the messages straight from the records, without memory but for the buffer, which is handed in.
fn write_straight(
    records: &[Record],
    rpts: &[usize],
    table: &[(Addr, Addr)],
    draft: &mut Draft,
) -> Option<usize> {
    let ports = rpts.len();
    let toward = |source: Addr| via(table, source) == Some(UPSTREAM);
    let mut walk = Walk::new(records, ports);
    let most = (BUDGET - 26) / 8;
    let may_be_too_big = rpts.iter().any(|count| *count >= most);
    while let Some(group) = walk.least_group().filter(|_| may_be_too_big) {
        let starred = walk.pass_stars(group);
        if starred > 0 && walk.exception_count(group, starred) >= most {
            return None;
        }
        walk.pass(group);
    }
    let mut walk = Walk::new(records, ports);
    draft.messages = 0;
    (draft.groups, draft.end) = (0, 14);
    while let Some(group) = walk.least_group() {
        let starred = walk.pass_stars(group);
        let mut stars = usize::from(starred > 0);
        let mut exceptions = walk.exception_count(group, starred);
        let mut next = walk.least_source(group);
        while stars > 0 || next.is_some() {
            if draft.room() < (stars + exceptions).max(1) {
                draft.send();
            }
            let (start, mut at) = (draft.end, draft.end + 12);
            if stars > 0 {
                put(7, RP, &mut draft.bytes[at..at + 8]);
                at += 8;
            }
            let most = draft.room() - stars - exceptions;
            let mut count = 0;
            while let Some(source) = next.filter(|_| count < most) {
                if toward(source) {
                    put(4, source, &mut draft.bytes[at..at + 8]);
                    at += 8;
                    count += 1;
                }
                walk.pass_source(group, source);
                next = walk.least_source(group);
            }
            let mut rpts = walk.clone();
            while let Some(source) = (exceptions > 0).then(|| rpts.next_exception(group, starred)).flatten() {
                put(5, source, &mut draft.bytes[at..at + 8]);
                at += 8;
            }
            let head = &mut draft.bytes[start..start + 12];
            head[..4].copy_from_slice(&[1, 0, 0, 32]);
            head[4..8].copy_from_slice(&group);
            head[8..10].copy_from_slice(&((stars + count) as u16).to_be_bytes());
            head[10..12].copy_from_slice(&(exceptions as u16).to_be_bytes());
            draft.groups += 1;
            draft.end = at;
            if next.is_some() {
                draft.send();
            }
            (stars, exceptions) = (0, 0);
        }
        walk.pass(group);
    }
    draft.send();
    Some(draft.messages)
}

fn tell_straight(name: &str, records: &[Record], ports: usize) {
    let rpts = rpts_of(records);
    let table = black_box(vec![([0; 4], UPSTREAM)]);
    let mut draft = Draft { bytes: vec![0; BUDGET], groups: 0, end: 14, messages: 0 };
    let start = Instant::now();
    for _ in 0..ROUNDS {
        black_box(write_straight(black_box(records), black_box(&rpts[..ports]), &table, &mut draft));
    }
    let each = start.elapsed().as_nanos() * 1000 / (records.len() as u128 * u128::from(ROUNDS));
    println!("{name}: straight {each} ps a record ({} messages)", draft.messages);
}

fn tell(name: &str, shape: Shape, ports: u32) {
    let records = black_box(records_of(shape, ports));
    let start = Instant::now();
    for _ in 0..ROUNDS {
        black_box(form_of(black_box(&records), ports as usize));
    }
    let forming = start.elapsed();
    let form = form_of(&records, ports as usize);
    let start = Instant::now();
    let mut messages = 0;
    for _ in 0..ROUNDS {
        messages = black_box(pack(black_box(&form), BUDGET)).1.len();
    }
    let packing = start.elapsed();
    let each = |nanos: u128| nanos * 1000 / (records.len() as u128 * u128::from(ROUNDS));
    println!(
        "{name}: of {} ps a record, pack {} ps an entry ({} records, {messages} messages)",
        each(forming.as_nanos()),
        each(packing.as_nanos()),
        records.len()
    );
    tell_straight(name, &records, ports as usize);
}

fn main() {
    let sources = Shape { star: false, sources: 100, exceptions: 0 };
    let starred = Shape { star: true, sources: 49, exceptions: 50 };
    tell("100 sources, one port", sources, 1);
    tell("100 sources, four ports", sources, 4);
    tell("star, 49 sources, 50 exceptions, one port", starred, 1);
}
