//! A router of one port: what becomes of each packet, and its time.
use crate::address::Address;
use crate::fault::Malformed;
use crate::frame::{open, Body};
use crate::hello::Hello;
use crate::join_prune::JoinPrune;
use crate::machine::Start;
use crate::neighbours::{Heard, Neighbours};
use crate::records::{Echo, Records};
use std::fmt;

/// From one Refresh to the next, in milliseconds.
const REFRESH_PERIOD: u64 = 60_000;

/// What became of a packet.
pub enum Verdict {
    Mine,
    Malformed(Malformed),
    OtherType(u8),
    Hello(Heard),
    UnknownNeighbour,
    NotForUs,
    /// There is no room for so many records.
    Full(usize),
    Applied,
}

/// How a run ended.
pub enum Step<A> {
    Echo(Echo<A>),
    Refresh,
    Reached,
}

pub struct Router<A> {
    address: A,
    rp: Option<A>,
    neighbours: Neighbours<A>,
    pub records: Records<A>,
    pub now: u64,
    next_refresh: u64,
}

impl fmt::Display for Verdict {
    fn fmt(&self, f: &mut fmt::Formatter<'_>) -> fmt::Result {
        match self {
            Verdict::Mine => f.write_str("mine"),
            Verdict::Malformed(fault) => write!(f, "malformed {fault}"),
            Verdict::OtherType(message_type) => write!(f, "type {message_type}"),
            Verdict::Hello(heard) => write!(f, "{heard}"),
            Verdict::UnknownNeighbour => f.write_str("unknown-neighbour"),
            Verdict::NotForUs => f.write_str("not-for-us"),
            Verdict::Full(needed) => write!(f, "full {needed}"),
            Verdict::Applied => f.write_str("applied"),
        }
    }
}

impl<A: Address> Router<A> {
    pub fn new(address: A, rp: Option<A>, limit: usize) -> Self {
        Router {
            address,
            rp,
            neighbours: Neighbours::new(),
            records: Records::new(limit),
            now: 0,
            next_refresh: REFRESH_PERIOD,
        }
    }

    /// Takes a packet that came at this moment.
    pub fn take(&mut self, source: A, destination: A, message: &[u8]) -> Verdict {
        if source == self.address {
            return Verdict::Mine;
        }
        let taken = match open(source, destination, message) {
            Ok(Body::Hello(body)) => self.take_hello(source, body),
            Ok(Body::JoinPrune(body)) => self.take_join_prune(source, body),
            Ok(Body::Other(message_type)) => Ok(Verdict::OtherType(message_type)),
            Err(fault) => Err(fault),
        };
        taken.unwrap_or_else(Verdict::Malformed)
    }

    fn take_hello(&mut self, source: A, body: &[u8]) -> Result<Verdict, Malformed> {
        let hello = Hello::read(body).map_err(Malformed::Hello)?;
        Ok(Verdict::Hello(self.neighbours.hear(source, hello, self.now)))
    }

    fn take_join_prune(&mut self, source: A, body: &[u8]) -> Result<Verdict, Malformed> {
        let message = JoinPrune::<A>::read(body).map_err(Malformed::JoinPrune)?;
        if !self.neighbours.knows(source) {
            return Ok(Verdict::UnknownNeighbour);
        }
        if message.upstream() != self.address {
            return Ok(Verdict::NotForUs);
        }
        let several = self.neighbours.count() > 1;
        let start = Start::at(self.now, message.holdtime(), self.neighbours.override_interval(), several);
        match self.records.hear(&message, self.rp, start) {
            Ok(()) => Ok(Verdict::Applied),
            Err(needed) => Ok(Verdict::Full(needed)),
        }
    }

    /// Runs to this moment, or until there is something to be told.
    pub fn run_to(&mut self, moment: u64) -> Step<A> {
        let stop = moment.min(self.next_refresh);
        let echo = self.records.run_to(stop);
        self.now = self.now.max(echo.as_ref().map_or(stop, |echo| echo.at));
        self.neighbours.expire(self.now);
        if let Some(echo) = echo {
            return Step::Echo(echo);
        }
        if self.now < self.next_refresh {
            return Step::Reached;
        }
        self.next_refresh += REFRESH_PERIOD;
        Step::Refresh
    }
}
