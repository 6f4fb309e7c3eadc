//! get, contains, put, delete and batch, each one call of the original.

use crate::list::{named, operations};
use crate::number::{said, BAD_LIST, OUTPUT_TOO_SMALL};
use crate::said::Said;
use crate::session::Session;
use arxia_core::ArxiaError;
use arxia_storage::{BatchOp, StorageBackend};
use outcome::{Op, Outcome};

impl Session {
    pub fn get(&mut self, key: &[u8], out: &mut [u8]) -> Outcome {
        self.on_good_image(|store| match store.get(key) {
            Ok(Some(value)) => hand_out(&value, out),
            Ok(None) => Said::answer(2),
            Err(error) => said(error),
        })
    }

    pub fn contains(&mut self, key: &[u8]) -> Outcome {
        self.on_good_image(|store| yes_or_no(store.contains(key)))
    }

    pub fn put(&mut self, key: &[u8], value: &[u8]) -> Outcome {
        self.on_good_image(|store| ok(store.put(key, value)))
    }

    pub fn delete(&mut self, key: &[u8]) -> Outcome {
        self.on_good_image(|store| yes_or_no(store.delete(key)))
    }

    pub fn batch(&mut self, list: &[u8]) -> Outcome {
        self.apply(|| operations(list))
    }

    pub fn ops(&mut self, ops: &[Op], pool: &[u8]) -> Outcome {
        self.apply(|| named(ops, pool))
    }

    fn apply<'a>(&mut self, read: impl FnOnce() -> Option<Vec<BatchOp<'a>>>) -> Outcome {
        self.on_good_image(|store| match read() {
            Some(ops) => ok(store.apply_batch(&ops)),
            None => Said::refused(BAD_LIST, [0; 3]),
        })
    }
}

/// The original hands out a vector; document 01 has a lent output, which stays
/// untouched if the value is longer.
fn hand_out(value: &[u8], out: &mut [u8]) -> Said {
    let length = value.len() as u64;
    let Some(place) = out.get_mut(..value.len()) else {
        return Said::refused(OUTPUT_TOO_SMALL, [length, 0, 0]);
    };
    place.copy_from_slice(value);
    Said { length, ..Said::answer(1) }
}

fn ok(result: Result<(), ArxiaError>) -> Said {
    match result {
        Ok(()) => Said::answer(1),
        Err(error) => said(error),
    }
}

fn yes_or_no(result: Result<bool, ArxiaError>) -> Said {
    match result {
        Ok(yes) => Said::yes_or_no(yes),
        Err(error) => said(error),
    }
}
