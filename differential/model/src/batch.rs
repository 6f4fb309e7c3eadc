//! The batch: journal, marker, apply.

use crate::codec::{entry, journal_key, marker, Op, MARKER_KEY};
use crate::items::take;
use crate::world::{on, World};
use crate::{reserved, No, Yes};
use outcome::{Op as Named, Outcome, State, CLEAN, DEBRIS, PENDING};

pub fn batch(region: &mut [u8], script: &[u8], state: State, list: &[u8]) -> Outcome {
    apply(region, script, state, || operations(list))
}

/// The same with the operations as structs over a byte pool.
pub fn ops(region: &mut [u8], script: &[u8], state: State, ops: &[Named], pool: &[u8]) -> Outcome {
    apply(region, script, state, || ops.iter().map(|op| operation(op, pool)).collect())
}

fn apply(
    region: &mut [u8],
    script: &[u8],
    state: State,
    read: impl FnOnce() -> Option<Vec<Op>>,
) -> Outcome {
    on(region, script, state, |world| {
        let ops = read().ok_or(No::BAD_LIST)?;
        if !ops.is_empty() {
            run(world, &ops)?;
        }
        Ok(Yes::plain(1))
    })
}

fn operation(op: &Named, pool: &[u8]) -> Option<Op> {
    let part = |at: usize, len: usize| {
        let rest = pool.get(at..)?;
        rest.get(..len).map(<[u8]>::to_vec)
    };
    let (key, value) = (part(op.key_at, op.key_len)?, part(op.value_at, op.value_len)?);
    match op.kind {
        1 => Some(Op::Put(key, value)),
        2 if op.value_len == 0 => Some(Op::Delete(key)),
        _ => None,
    }
}

fn operations(list: &[u8]) -> Option<Vec<Op>> {
    let mut ops = Vec::new();
    let mut rest = list;
    while !rest.is_empty() {
        let (kind, key, value, after) = take(rest)?;
        ops.push(match (kind, value) {
            (1, _) => Op::Put(key.to_vec(), value.to_vec()),
            (2, []) => Op::Delete(key.to_vec()),
            _ => return None,
        });
        rest = after;
    }
    Some(ops)
}

fn run(world: &mut World, ops: &[Op]) -> Result<(), No> {
    if ops.len() > 65534 {
        return Err(No(2, [2, ops.len() as u64, 65534]));
    }
    ops.iter().try_for_each(allowed)?;
    if world.health != CLEAN {
        world.recover()?;
    }
    journal(world, ops).inspect_err(|_| world.health = DEBRIS)?;
    let marker = marker(ops.len() as u64);
    if let Err(first) = world.store(&MARKER_KEY, &marker) {
        return match world.fetch(&MARKER_KEY) {
            Ok(Some(found)) if found == marker => finish(world),
            Ok(_) => {
                world.health = DEBRIS;
                Err(first)
            }
            Err(_) => {
                world.health = PENDING;
                Err(No::UNCERTAIN)
            }
        };
    }
    apply_all(world, ops).or_else(|_| finish(world))
}

fn allowed(op: &Op) -> Result<(), No> {
    let (key, value): (&[u8], &[u8]) = match op {
        Op::Put(key, value) => (key, value),
        Op::Delete(key) => (key, &[]),
    };
    if key.len() > 96 {
        Err(No::key_too_long(key.len()))
    } else if reserved(key) {
        Err(No::RESERVED)
    } else if value.len() > 256 {
        Err(No::value_too_long(value.len()))
    } else {
        Ok(())
    }
}

fn journal(world: &mut World, ops: &[Op]) -> Result<(), No> {
    for (index, op) in ops.iter().enumerate() {
        world.store(&journal_key(index as u64), &entry(op))?;
    }
    Ok(())
}

fn apply_all(world: &mut World, ops: &[Op]) -> Result<(), No> {
    for (index, op) in ops.iter().enumerate() {
        world.apply(op)?;
        world.remove(&journal_key(index as u64))?;
    }
    world.remove(&MARKER_KEY)
}

/// The batch is committed but not done: one more try through recovery.
fn finish(world: &mut World) -> Result<(), No> {
    world.health = PENDING;
    world.recover().map_err(|no| match no {
        No(13, _) => no,
        _ => No::COMMITTED,
    })
}
