//! Item calls on a list of items under the fault script, and the frame that
//! every public call shares.

use crate::items::{items, render, space, Item};
use crate::{No, Yes};
use outcome::{Outcome, Space, State};

pub struct World<'s> {
    pub items: Vec<Item>,
    /// Bytes of the region lent to this call.
    pub bytes: usize,
    pub health: u64,
    script: &'s [u8],
    at: u64,
    cut: bool,
    /// As it was handed in, until an item call takes effect.
    space: Space,
    calls: u64,
}

/// What becomes of one item call.
enum Fate {
    Pass,
    Fail { no: No, effect: bool },
}

impl World<'_> {
    fn fate(&mut self) -> Fate {
        self.calls += 1;
        let dead = No(5, [2, 0, 0]);
        if self.cut {
            return Fate::Fail { no: dead, effect: false };
        }
        if self.at >= self.script.len() as u64 {
            return Fate::Pass;
        }
        let byte = self.script[self.at as usize];
        self.at += 1;
        let no = match byte % 128 {
            0 => return Fate::Pass,
            code @ 1..=3 => No(5, [u64::from(code) - 1, 0, 0]),
            code @ 4..=8 => No(u64::from(code) + 2, [0; 3]),
            code @ 9..=12 => No(11, [u64::from(code) - 9, 0, 0]),
            13 => No(12, [0; 3]),
            14 => No(4, [0; 3]),
            127 => {
                self.cut = true;
                dead
            }
            _ => No(8, [0; 3]),
        };
        Fate::Fail { no, effect: byte >= 128 }
    }

    fn place(&self, key: &[u8]) -> Option<usize> {
        self.items.iter().position(|item| item.key == key)
    }

    /// Put the item at the end if it fits; says whether it did.
    fn do_store(&mut self, key: &[u8], value: &[u8]) -> bool {
        let new = Item { key: key.to_vec(), value: value.to_vec() };
        let old = self.place(key);
        let used: usize = self.items.iter().map(Item::size).sum();
        let freed = old.map_or(0, |place| self.items[place].size());
        let fits = used - freed + new.size() <= self.bytes;
        if fits {
            if let Some(place) = old {
                self.items.remove(place);
            }
            self.items.push(new);
            self.space = space(&self.items, self.bytes);
        }
        fits
    }

    fn do_remove(&mut self, key: &[u8]) {
        if let Some(place) = self.place(key) {
            self.items.remove(place);
        }
        self.space = space(&self.items, self.bytes);
    }

    pub fn store(&mut self, key: &[u8], value: &[u8]) -> Result<(), No> {
        match self.fate() {
            Fate::Pass if self.do_store(key, value) => Ok(()),
            Fate::Pass => Err(No::FULL),
            Fate::Fail { no, effect } => {
                let _fitted = effect && self.do_store(key, value);
                Err(no)
            }
        }
    }

    pub fn remove(&mut self, key: &[u8]) -> Result<(), No> {
        let fate = self.fate();
        if !matches!(fate, Fate::Fail { effect: false, .. }) {
            self.do_remove(key);
        }
        match fate {
            Fate::Pass => Ok(()),
            Fate::Fail { no, .. } => Err(no),
        }
    }

    fn read(&mut self) -> Result<(), No> {
        match self.fate() {
            Fate::Pass => Ok(()),
            Fate::Fail { no, .. } => Err(no),
        }
    }

    pub fn fetch(&mut self, key: &[u8]) -> Result<Option<Vec<u8>>, No> {
        self.read()?;
        let place = self.place(key);
        Ok(place.map(|place| self.items[place].value.clone()))
    }

    /// A whole iteration: one call opens, one hands out each item, one says
    /// that there is none. `each` may end it early by refusing.
    pub fn iterate(&mut self, mut each: impl FnMut(&Item) -> Result<(), No>) -> Result<(), No> {
        self.read()?;
        for place in 0..self.items.len() {
            self.read()?;
            each(&self.items[place])?;
        }
        self.read()
    }
}

/// A public call on a region: the image test, the call, and what it leaves.
pub fn on(
    region: &mut [u8],
    script: &[u8],
    state: State,
    call: impl FnOnce(&mut World) -> Result<Yes, No>,
) -> Outcome {
    let State { health, at, cut, space } = state;
    let Some(items) = items(region) else {
        return no_call(No::CORRUPTED, state);
    };
    let mut world =
        World { items, bytes: region.len(), health, script, at, cut: cut != 0, space, calls: 0 };
    let said = call(&mut world);
    render(&world.items, region);
    let left = Outcome {
        health: world.health,
        at: world.at,
        cut: u64::from(world.cut),
        space: world.space,
        calls: world.calls,
        ..Outcome::default()
    };
    match said {
        Ok(yes) => Outcome { answer: yes.answer, count: yes.count, length: yes.length, ..left },
        Err(No(number, v)) => Outcome { number, v, ..left },
    }
}

/// Refused before any item call, with the state as it was.
pub fn no_call(no: No, state: State) -> Outcome {
    Outcome {
        number: no.0,
        v: no.1,
        health: state.health,
        at: state.at,
        cut: state.cut,
        space: state.space,
        ..Outcome::default()
    }
}
