//! The scan: the original's visit with document 01's output buffer and its
//! most-records limit laid over it.

use crate::number::said;
use crate::said::Said;
use crate::session::Session;
use arxia_core::ArxiaError;
use arxia_storage::StorageBackend;
use outcome::Outcome;
use sequential_storage::image::{write_record, HEAD};

const FINISHED: u64 = 1;
const STOPPED: u64 = 2;
const NO_ROOM: u64 = 3;

impl Session {
    pub fn scan(&mut self, prefix: &[u8], most: u64, out: &mut [u8]) -> Outcome {
        self.on_good_image(|store| {
            if most == 0 {
                // No pass, but the recovery. The original's contains does just
                // that for a reserved key.
                let recovered = store.contains(&[0]).map(|_| ());
                return ended(recovered, STOPPED, 0, 0);
            }
            let mut end = FINISHED;
            let mut count = 0;
            let mut length = 0;
            let result = store.scan_prefix(prefix, &mut |key, value| {
                let size = HEAD + key.len() + value.len();
                let Some(place) = out.get_mut(length..length + size) else {
                    end = NO_ROOM;
                    return false;
                };
                write_record(place, key, value);
                length += size;
                count += 1;
                if count == most {
                    end = STOPPED;
                }
                count < most
            });
            ended(result, end, count, length as u64)
        })
    }
}

/// A refused scan, too, says which records stand in the output.
fn ended(result: Result<(), ArxiaError>, end: u64, count: u64, length: u64) -> Said {
    let said = match result {
        Ok(()) => Said::answer(end),
        Err(error) => said(error),
    };
    Said { count, length, ..said }
}
