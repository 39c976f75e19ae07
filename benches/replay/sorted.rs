//! Machines of a group in the order of their sources.
use crate::machine::Machine;
use std::cell::Cell;

/// Pairs in order. A look-up begins where the last one ended, since messages name sources in order.
pub struct Sorted<A> {
    pairs: Vec<(A, Machine)>,
    near: Cell<usize>,
}

impl<A: Copy + Ord> Sorted<A> {
    pub fn new() -> Self {
        Sorted { pairs: Vec::new(), near: Cell::new(0) }
    }

    /// The place of the machine of this source, or where it belongs.
    fn find(&self, source: A) -> Result<usize, usize> {
        let near = self.near.get();
        let found = match self.pairs.get(near) {
            Some(pair) if pair.0 == source => Ok(near),
            None if self.pairs.last().is_none_or(|pair| pair.0 < source) => Err(self.pairs.len()),
            _ => self.pairs.binary_search_by_key(&source, |pair| pair.0),
        };
        self.near.set(found.map_or_else(|place| place, |place| place + 1));
        found
    }

    pub fn get(&self, source: A) -> Option<&Machine> {
        self.find(source).ok().map(|place| &self.pairs[place].1)
    }

    /// Gives the machine of this source another value. Returns the former one and the new one.
    pub fn change(
        &mut self,
        source: A,
        next: impl FnOnce(Option<Machine>) -> Option<Machine>,
    ) -> (Option<Machine>, Option<Machine>) {
        match self.find(source) {
            Ok(place) => {
                let before = Some(self.pairs[place].1);
                let after = next(before);
                match after {
                    Some(machine) => self.pairs[place].1 = machine,
                    None => drop(self.pairs.remove(place)),
                }
                (before, after)
            }
            Err(place) => {
                let after = next(None);
                if let Some(machine) = after {
                    self.pairs.insert(place, (source, machine));
                    self.near.set(place + 1);
                }
                (None, after)
            }
        }
    }

    pub fn is_empty(&self) -> bool {
        self.pairs.is_empty()
    }

    pub fn len(&self) -> usize {
        self.pairs.len()
    }

    pub fn iter(&self) -> impl Iterator<Item = (&A, &Machine)> {
        self.pairs.iter().map(|(source, machine)| (source, machine))
    }

    pub fn values_mut(&mut self) -> impl Iterator<Item = &mut Machine> {
        self.pairs.iter_mut().map(|pair| &mut pair.1)
    }

    pub fn retain(&mut self, stays: impl Fn(&Machine) -> bool) {
        self.pairs.retain(|pair| stays(&pair.1));
    }
}
