//! The machines of a group.
use crate::address::Address;
use crate::join_prune::Entry;
use crate::machine::{on_join, on_prune, on_rpt_prune, on_star_join, Machine, Start};
use crate::sorted::Sorted;

/// Which of a group's machines it is.
#[derive(Clone, Copy, PartialEq, Eq, PartialOrd, Ord)]
pub enum What<A> {
    Star,
    Source(A),
    Rpt(A),
}

pub struct Group<A> {
    pub star: Option<Machine>,
    pub sources: Sorted<A>,
    pub rpts: Sorted<A>,
}

/// A machine before and after something has changed it.
pub struct Change {
    pub before: Option<Machine>,
    pub after: Option<Machine>,
}

/// Changes one of these machines.
fn change_in<A: Copy + Ord>(
    machines: &mut Sorted<A>,
    source: A,
    next: impl FnOnce(Option<Machine>) -> Option<Machine>,
) -> Change {
    let (before, after) = machines.change(source, next);
    Change { before, after }
}

impl<A> What<A> {
    /// The machine that an entry is about.
    pub fn of(entry: Entry<A>) -> Self {
        match entry {
            Entry::Star(_) => What::Star,
            Entry::Source(source) => What::Source(source),
            Entry::Rpt(source) => What::Rpt(source),
        }
    }

    pub fn is_rpt(&self) -> bool {
        matches!(self, What::Rpt(_))
    }
}

impl<A: Address> Group<A> {
    pub fn new() -> Self {
        Group { star: None, sources: Sorted::new(), rpts: Sorted::new() }
    }

    pub fn is_empty(&self) -> bool {
        self.star.is_none() && self.sources.is_empty() && self.rpts.is_empty()
    }

    pub fn get(&self, what: What<A>) -> Option<&Machine> {
        match what {
            What::Star => self.star.as_ref(),
            What::Source(source) => self.sources.get(source),
            What::Rpt(source) => self.rpts.get(source),
        }
    }

    pub fn change(&mut self, what: What<A>, next: impl FnOnce(Option<Machine>) -> Option<Machine>) -> Change {
        match what {
            What::Star => {
                let before = self.star;
                self.star = next(before);
                Change { before, after: self.star }
            }
            What::Source(source) => change_in(&mut self.sources, source, next),
            What::Rpt(source) => change_in(&mut self.rpts, source, next),
        }
    }

    pub fn hear_join(&mut self, what: What<A>, start: Start) -> Change {
        if what == What::Star {
            self.rpts.values_mut().for_each(on_star_join);
        }
        self.change(what, |held| if what.is_rpt() { None } else { on_join(held, start) })
    }

    pub fn hear_prune(&mut self, what: What<A>, start: Start) -> Change {
        let next = if what.is_rpt() { on_rpt_prune } else { on_prune };
        self.change(what, |held| next(held, start))
    }

    /// The end of a message that names the group. The answer is how many machines end.
    pub fn end_message(&mut self) -> usize {
        let count = self.rpts.len();
        self.rpts.retain(|machine| !machine.is_temporary());
        count - self.rpts.len()
    }
}
