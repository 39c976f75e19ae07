//! The machines of a port and their timers.
use crate::address::Address;
use crate::group::{Change, Group, What};
use crate::join_prune::{Entry, JoinPrune, Set};
use crate::machine::{Machine, Start, State};
use std::cmp::Reverse;
use std::collections::{BTreeMap, BinaryHeap};

#[derive(Clone, Copy, PartialEq, Eq, PartialOrd, Ord)]
enum Timer {
    Pending,
    Expiry,
}

/// When a timer ends, in the order in which they fire.
#[derive(Clone, Copy, PartialEq, Eq, PartialOrd, Ord)]
struct End<A> {
    at: u64,
    timer: Timer,
    group: A,
    what: What<A>,
}

/// A prune that is to be repeated.
pub struct Echo<A> {
    pub at: u64,
    pub group: A,
    pub what: What<A>,
}

/// How many machines there are, and the ends of their timers. The end of a timer that was stopped stays until its time
/// has come, and that of one that was put off is put off then.
struct Tally<A> {
    machines: usize,
    ends: BinaryHeap<Reverse<End<A>>>,
}

/// The machines of a port, at most so many.
pub struct Records<A> {
    groups: BTreeMap<A, Group<A>>,
    tally: Tally<A>,
    limit: usize,
}

/// Whether a joined entry counts: that of (*,G) has to name the RP that is known.
fn counts<A: PartialEq>(entry: &Entry<A>, rp: Option<A>) -> bool {
    match entry {
        Entry::Star(told) => rp.as_ref() == Some(told),
        Entry::Source(_) | Entry::Rpt(_) => true,
    }
}

impl<A: Address> Tally<A> {
    fn add_end(&mut self, at: u64, timer: Timer, group: A, what: What<A>) {
        self.ends.push(Reverse(End { at, timer, group, what }));
    }

    /// Notes what a change has made or ended, and the timers that it has started.
    fn note(&mut self, group: A, what: What<A>, Change { before, after }: Change) {
        self.machines += usize::from(after.is_some());
        self.machines -= usize::from(before.is_some());
        let Some(after) = after else {
            return;
        };
        let expiry = after.expires_at.filter(|_| before.is_none());
        let pending = after.pending.filter(|_| before.is_none_or(|before| before.pending != after.pending));
        if let Some(at) = expiry {
            self.add_end(at, Timer::Expiry, group, what);
        }
        if let Some(pending) = pending {
            self.add_end(pending.ends_at, Timer::Pending, group, what);
        }
    }

    /// The next end up to this moment.
    fn next_end(&mut self, moment: u64) -> Option<End<A>> {
        let Reverse(end) = *self.ends.peek()?;
        if end.at > moment {
            return None;
        }
        self.ends.pop();
        Some(end)
    }
}

impl<A: Address> Records<A> {
    pub fn new(limit: usize) -> Self {
        let tally = Tally { machines: 0, ends: BinaryHeap::new() };
        Records { groups: BTreeMap::new(), tally, limit }
    }

    /// The groups that have machines, in order.
    pub fn groups(&self) -> impl Iterator<Item = (A, &Group<A>)> {
        self.groups.iter().map(|(address, group)| (*address, group))
    }

    /// How many entries of a set would make a machine.
    fn fresh_in<'a>(&self, set: &Set<'a, A>, rp: Option<A>) -> usize
    where
        A: 'a,
    {
        let group = self.groups.get(&set.group);
        let is_fresh = |what: &What<A>| group.is_none_or(|group| group.get(*what).is_none());
        let joins = set.joined().filter(|entry| counts(entry, rp)).map(What::of);
        let prunes = set.pruned().map(What::of);
        joins.filter(|what| !what.is_rpt() && is_fresh(what)).count()
            + prunes.filter(|what| what.is_rpt() && is_fresh(what)).count()
    }

    fn hear_set<'a>(&mut self, set: &Set<'a, A>, rp: Option<A>, start: Start)
    where
        A: 'a,
    {
        let group = self.groups.entry(set.group).or_insert_with(Group::new);
        for what in set.joined().filter(|entry| counts(entry, rp)).map(What::of) {
            self.tally.note(set.group, what, group.hear_join(what, start));
        }
        for what in set.pruned().map(What::of) {
            self.tally.note(set.group, what, group.hear_prune(what, start));
        }
    }

    /// The end of a message that names this group, which is no more held without machines.
    fn end_message(&mut self, address: A) {
        let Some(group) = self.groups.get_mut(&address) else {
            return;
        };
        self.tally.machines -= group.end_message();
        if group.is_empty() {
            self.groups.remove(&address);
        }
    }

    /// Whether there is room for a message; else how much it needs. What is fresh counts only near the limit.
    fn judge<'a>(&self, message: &JoinPrune<'a, A>, rp: Option<A>) -> Result<(), usize>
    where
        A: 'a,
    {
        let entries: usize = message.sets().map(|set| set.len()).sum();
        if self.tally.machines + entries <= self.limit {
            return Ok(());
        }
        let fresh: usize = message.sets().map(|set| self.fresh_in(&set, rp)).sum();
        let needed = self.tally.machines + fresh;
        if needed > self.limit {
            return Err(needed);
        }
        Ok(())
    }

    /// Hears a message. Where there is no room for it, nothing changes, and the answer is how much it needs.
    pub fn hear<'a>(&mut self, message: &JoinPrune<'a, A>, rp: Option<A>, start: Start) -> Result<(), usize>
    where
        A: 'a,
    {
        self.judge(message, rp)?;
        for set in message.sets() {
            self.hear_set(&set, rp, start);
        }
        for set in message.sets() {
            self.end_message(set.group);
        }
        Ok(())
    }

    fn change(&mut self, end: &End<A>, next: impl FnOnce(Option<Machine>) -> Option<Machine>) {
        let Some(group) = self.groups.get_mut(&end.group) else {
            return;
        };
        self.tally.note(end.group, end.what, group.change(end.what, next));
        if group.is_empty() {
            self.groups.remove(&end.group);
        }
    }

    fn machine(&self, end: &End<A>) -> Option<Machine> {
        self.groups.get(&end.group)?.get(end.what).copied()
    }

    /// A prune-pending timer has come to its end, if it wasn't stopped.
    fn fire_pending(&mut self, end: End<A>) -> Option<Echo<A>> {
        let pending = self.machine(&end)?.pending.filter(|pending| pending.ends_at == end.at)?;
        let End { at, group, what, .. } = end;
        if what.is_rpt() {
            let pruned = |held: Machine| Machine { state: State::Prune, pending: None, ..held };
            self.change(&end, |held| held.map(pruned));
            return None;
        }
        self.change(&end, |_| None);
        pending.several.then_some(Echo { at, group, what })
    }

    /// An expiry timer has come to its end, if it wasn't put off.
    fn fire_expiry(&mut self, end: End<A>) {
        match self.machine(&end).and_then(|machine| machine.expires_at) {
            Some(at) if at > end.at => self.tally.add_end(at, end.timer, end.group, end.what),
            Some(_) => self.change(&end, |_| None),
            None => {}
        }
    }

    /// Lets timers fire up to this moment, or until there is something to be repeated.
    pub fn run_to(&mut self, moment: u64) -> Option<Echo<A>> {
        while let Some(end) = self.tally.next_end(moment) {
            match end.timer {
                Timer::Expiry => self.fire_expiry(end),
                Timer::Pending => {
                    let echo = self.fire_pending(end);
                    if echo.is_some() {
                        return echo;
                    }
                }
            }
        }
        None
    }
}
