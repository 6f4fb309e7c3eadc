//! mount, get, contains, put and delete, and the question for the room.

use crate::items::space_of;
use crate::world::{no_call, on, World};
use crate::{reserved, No, Yes};
use outcome::{Outcome, Space, State, DEBRIS, PENDING};

pub fn mount(region: &mut [u8], script: &[u8], start: u32, at: u64) -> Outcome {
    // Until it is known, the region may hold anything: a refused mount hands
    // back Pending. Every mount begins with the cut lifted, and with a walk.
    let state = State { health: PENDING, at, cut: 0, space: space_of(region) };
    let len = region.len() as u64;
    let start = u64::from(start);
    let wrong = [
        start + len >= 1 << 32,
        !start.is_multiple_of(4096),
        !(start + len).is_multiple_of(4096),
        len < 8192,
    ];
    if let Some(kind) = wrong.iter().position(|wrong| *wrong) {
        return no_call(No(1, [kind as u64, 0, 0]), state);
    }
    on(region, script, state, |world| {
        world.recover()?;
        Ok(Yes::plain(1))
    })
}

pub fn get(region: &mut [u8], script: &[u8], state: State, key: &[u8], out: &mut [u8]) -> Outcome {
    on(region, script, state, |world| {
        let Some(value) = look_up(world, key)? else {
            return Ok(Yes::plain(2));
        };
        let length = value.len() as u64;
        if value.len() > out.len() {
            return Err(No(18, [length, 0, 0]));
        }
        out[..value.len()].copy_from_slice(&value);
        Ok(Yes { answer: 1, count: 0, length })
    })
}

pub fn contains(region: &mut [u8], script: &[u8], state: State, key: &[u8]) -> Outcome {
    on(region, script, state, |world| {
        let found = look_up(world, key)?.is_some();
        Ok(Yes::plain(if found { 1 } else { 2 }))
    })
}

pub fn put(region: &mut [u8], script: &[u8], state: State, key: &[u8], value: &[u8]) -> Outcome {
    on(region, script, state, |world| {
        world.recover_if_pending()?;
        let mut tried = try_put(world, key, value);
        if tried == Err(No::FULL) && world.health == DEBRIS {
            world.recover()?;
            tried = try_put(world, key, value);
        }
        tried.map(|()| Yes::plain(1))
    })
}

pub fn delete(region: &mut [u8], script: &[u8], state: State, key: &[u8]) -> Outcome {
    on(region, script, state, |world| {
        if reserved(key) {
            return Err(No::RESERVED);
        }
        let found = look_up(world, key)?.is_some();
        if found {
            world.remove(key)?;
        }
        Ok(Yes::plain(if found { 1 } else { 2 }))
    })
}

/// The room, from the state alone.
pub fn space(state: State) -> Space {
    state.space
}

/// Recover, then a key that cannot be stored is absent without a fetch.
fn look_up(world: &mut World, key: &[u8]) -> Result<Option<Vec<u8>>, No> {
    world.recover_if_pending()?;
    if reserved(key) || key.len() > 96 {
        return Ok(None);
    }
    world.fetch(key)
}

fn try_put(world: &mut World, key: &[u8], value: &[u8]) -> Result<(), No> {
    if value.len() > 256 {
        return Err(No::value_too_long(value.len()));
    }
    if reserved(key) {
        return Err(No::RESERVED);
    }
    if key.len() > 96 {
        return Err(No::key_too_long(key.len()));
    }
    world.store(key, value)
}
