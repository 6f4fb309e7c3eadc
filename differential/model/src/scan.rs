//! The ordered scan: passes that each keep the eight smallest keys beyond the
//! last one written.

use crate::items::Item;
use crate::world::{on, World};
use crate::{reserved, No, Yes};
use outcome::{Outcome, State};

const WINDOW: usize = 8;
const FINISHED: u64 = 1;
const STOPPED: u64 = 2;
const NO_ROOM: u64 = 3;

pub fn scan(
    region: &mut [u8],
    script: &[u8],
    state: State,
    prefix: &[u8],
    most: u64,
    out: &mut [u8],
) -> Outcome {
    let (mut count, mut length) = (0, 0);
    let outcome = on(region, script, state, |world| {
        world.recover_if_pending()?;
        let mut last: Option<Vec<u8>> = None;
        if most == 0 {
            return Ok(Yes::plain(STOPPED));
        }
        loop {
            let kept = pass(world, prefix, &last)?;
            for item in &kept {
                let record = item.record();
                let end = length + record.len();
                if end > out.len() {
                    return Ok(Yes::plain(NO_ROOM));
                }
                out[length..end].copy_from_slice(&record);
                length = end;
                count += 1;
                if count == most {
                    return Ok(Yes::plain(STOPPED));
                }
            }
            if kept.len() < WINDOW {
                return Ok(Yes::plain(FINISHED));
            }
            last = kept.last().map(|item| item.key.clone());
        }
    });
    // A refused scan, too, tells which records stand.
    Outcome { count, length: length as u64, ..outcome }
}

fn pass(world: &mut World, prefix: &[u8], last: &Option<Vec<u8>>) -> Result<Vec<Item>, No> {
    let mut beyond: Vec<Item> = Vec::new();
    world.iterate(|item| {
        if reserved(&item.key) || !item.key.starts_with(prefix) {
            return Ok(());
        }
        if item.value.len() > 256 {
            return Err(No::value_too_long(item.value.len()));
        }
        if last.as_ref().is_none_or(|last| item.key > *last) {
            beyond.push(item.clone());
        }
        Ok(())
    })?;
    beyond.sort_by(|one, other| one.key.cmp(&other.key));
    beyond.truncate(WINDOW);
    Ok(beyond)
}
