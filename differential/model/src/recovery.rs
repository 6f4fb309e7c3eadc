//! Recovery: finish the batch that a marker names, or drop what one left.

use crate::codec::{is_journal_key, journal_key, marker_count, operation, Op, MARKER_KEY};
use crate::world::World;
use crate::No;
use outcome::{CLEAN, PENDING};

impl World<'_> {
    /// Success makes the health Clean, failure keeps it.
    pub fn recover(&mut self) -> Result<(), No> {
        match self.fetch(&MARKER_KEY)? {
            None => self.discard()?,
            Some(value) => match marker_count(&value) {
                None => {
                    self.discard()?;
                    self.remove(&MARKER_KEY)?;
                }
                Some(count) => self.replay(count)?,
            },
        }
        self.health = CLEAN;
        Ok(())
    }

    pub fn recover_if_pending(&mut self) -> Result<(), No> {
        if self.health == PENDING {
            self.recover()?;
        }
        Ok(())
    }

    fn discard(&mut self) -> Result<(), No> {
        let mut stale = Vec::new();
        self.iterate(|item| {
            if is_journal_key(&item.key) {
                stale.push(item.key.clone());
            }
            Ok(())
        })?;
        stale.iter().try_for_each(|key| self.remove(key))
    }

    fn replay(&mut self, count: u64) -> Result<(), No> {
        if count == 65535 || count > self.bytes as u64 / 15 {
            return Err(No(13, [0, count, 0]));
        }
        for index in 0..count {
            let key = journal_key(index);
            let Some(entry) = self.fetch(&key)? else {
                continue;
            };
            let op = operation(&entry).ok_or(No(13, [1, index, 0]))?;
            self.apply(&op)?;
            self.remove(&key)?;
        }
        self.remove(&MARKER_KEY)
    }

    pub fn apply(&mut self, op: &Op) -> Result<(), No> {
        match op {
            Op::Put(key, value) => self.store(key, value),
            Op::Delete(key) => self.remove(key),
        }
    }
}
