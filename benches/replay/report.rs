//! The report of a replay: a line for each packet and each echo, and then the state.
use crate::address::{Address, Shown};
use crate::fault::CaptureFault;
use crate::group::{Group, What};
use crate::machine::{Machine, State};
use crate::pcap::{Capture, Packet};
use crate::records::Records;
use crate::router::{Router, Step};
use std::fmt;
use std::io::{self, Read, Write};

/// Why a replay ended before its end.
pub enum Fault {
    Capture(CaptureFault),
    Output,
}

impl From<CaptureFault> for Fault {
    fn from(fault: CaptureFault) -> Self {
        Fault::Capture(fault)
    }
}

impl From<io::Error> for Fault {
    fn from(_: io::Error) -> Self {
        Fault::Output
    }
}

impl fmt::Display for Fault {
    fn fmt(&self, f: &mut fmt::Formatter<'_>) -> fmt::Result {
        match self {
            Fault::Capture(fault) => fault.fmt(f),
            Fault::Output => f.write_str("output"),
        }
    }
}

/// One of a group's machines, as it is told.
struct Named<A> {
    what: What<A>,
    group: A,
}

impl<A: Address> fmt::Display for Named<A> {
    fn fmt(&self, f: &mut fmt::Formatter<'_>) -> fmt::Result {
        let group = Shown(self.group);
        match self.what {
            What::Star => write!(f, "star {group}"),
            What::Source(source) => write!(f, "source {} {group}", Shown(source)),
            What::Rpt(source) => write!(f, "rpt {} {group}", Shown(source)),
        }
    }
}

impl fmt::Display for State {
    fn fmt(&self, f: &mut fmt::Formatter<'_>) -> fmt::Result {
        f.write_str(match self {
            State::Join => "join",
            State::PrunePending => "prune-pending",
            State::Prune => "prune",
            State::PruneTmp => "prune-tmp",
            State::PrunePendingTmp => "prune-pending-tmp",
        })
    }
}

/// What a replay counts.
#[derive(Default)]
struct Counts {
    skipped: u64,
    refreshes: u64,
}

/// A replay of one capture.
pub struct Replay<'w, A, W> {
    router: Router<A>,
    counts: Counts,
    out: &'w mut W,
}

impl<'w, A: Address, W: Write> Replay<'w, A, W> {
    pub fn new(router: Router<A>, out: &'w mut W) -> Self {
        Replay { router, counts: Counts::default(), out }
    }

    /// Lets time pass up to this moment.
    fn pass(&mut self, moment: u64) -> io::Result<()> {
        loop {
            match self.router.run_to(moment) {
                Step::Echo(echo) => {
                    let named = Named { what: echo.what, group: echo.group };
                    writeln!(self.out, "{} port 0 echo {named}", self.router.now)?;
                }
                Step::Refresh => self.counts.refreshes += 1,
                Step::Reached => return Ok(()),
            }
        }
    }

    /// Takes a packet, if it is of the router's family.
    fn take(&mut self, packet: &Packet<'_>) -> io::Result<()> {
        if packet.source.len() != A::LENGTH {
            self.counts.skipped += 1;
            return Ok(());
        }
        let source = A::take(packet.source);
        let verdict = self.router.take(source, A::take(packet.destination), packet.message);
        writeln!(self.out, "{} port 0 from {} {verdict}", self.router.now, Shown(source))
    }

    /// Takes all records of a capture, lets so much time pass behind them, and tells the state.
    pub fn run(mut self, reader: impl Read, after_ms: u64) -> Result<(), Fault> {
        let mut capture = Capture::new(reader)?;
        let mut begin = None;
        while let Some(record) = capture.next()? {
            let begin = *begin.get_or_insert(record.millis);
            self.pass(record.millis.saturating_sub(begin).max(self.router.now))?;
            match record.packet {
                Some(packet) => self.take(&packet)?,
                None => self.counts.skipped += 1,
            }
        }
        self.pass(self.router.now + after_ms)?;
        self.tell_state()?;
        Ok(())
    }

    fn tell_state(self) -> io::Result<()> {
        let Counts { skipped, refreshes } = self.counts;
        writeln!(self.out, "state at {}", self.router.now)?;
        tell_records(&self.router.records, self.router.now, self.out)?;
        tell_wants(&self.router.records, self.out)?;
        writeln!(self.out, "skipped {skipped} refreshes {refreshes}")
    }
}

fn tell_records<A: Address>(records: &Records<A>, now: u64, out: &mut impl Write) -> io::Result<()> {
    for (address, group) in records.groups() {
        let star = group.star.iter().map(|machine| (What::Star, machine));
        let sources = group.sources.iter().map(|(source, machine)| (What::Source(*source), machine));
        let rpts = group.rpts.iter().map(|(source, machine)| (What::Rpt(*source), machine));
        for (what, machine) in star.chain(sources).chain(rpts) {
            tell_record(&Named { what, group: address }, machine, now, out)?;
        }
    }
    Ok(())
}

fn tell_record<A: Address>(named: &Named<A>, machine: &Machine, now: u64, out: &mut impl Write) -> io::Result<()> {
    write!(out, "port 0 {named} {} et ", machine.state)?;
    match machine.expires_at {
        Some(end) => write!(out, "{}", end - now)?,
        None => out.write_all(b"never")?,
    }
    match machine.pending {
        Some(pending) => writeln!(out, " ppt {}", pending.ends_at - now),
        None => writeln!(out, " ppt -"),
    }
}

/// What the machines want of the upstream neighbour.
fn tell_wants<A: Address>(records: &Records<A>, out: &mut impl Write) -> io::Result<()> {
    for (address, group) in records.groups() {
        tell_group(Shown(address), group, out)?;
    }
    Ok(())
}

fn tell_group<A: Address>(shown: Shown<A>, group: &Group<A>, out: &mut impl Write) -> io::Result<()> {
    if group.star.is_some_and(|star| star.is_joined()) {
        writeln!(out, "want star {shown}")?;
        for (source, _) in group.rpts.iter().filter(|(_, machine)| machine.state == State::Prune) {
            writeln!(out, "except {} {shown}", Shown(*source))?;
        }
    }
    for (source, _) in group.sources.iter().filter(|(_, machine)| machine.is_joined()) {
        writeln!(out, "want source {} {shown}", Shown(*source))?;
    }
    Ok(())
}
