//! What is compared with the Rust original: functions of region, script and
//! state. The mirror is the plain model.

use outcome::{Codec, KeyRead, Op, Outcome, Space, State};

pub trait Subject {
    fn mount(&self, region: &mut [u8], script: &[u8], start: u32, at: u64) -> Outcome;
    fn get(&self, on: On, key: &[u8], out: &mut [u8]) -> Outcome;
    fn contains(&self, on: On, key: &[u8]) -> Outcome;
    fn put(&self, on: On, key: &[u8], value: &[u8]) -> Outcome;
    fn delete(&self, on: On, key: &[u8]) -> Outcome;
    fn batch(&self, on: On, list: &[u8]) -> Outcome;
    fn ops(&self, on: On, ops: &[Op], pool: &[u8]) -> Outcome;
    fn scan(&self, on: On, prefix: &[u8], most: u64, out: &mut [u8]) -> Outcome;
    /// The question for the room, which sees the state and no region.
    fn space(&self, state: State) -> Space;
    fn key_read(&self, buffer: &[u8]) -> KeyRead;
    fn key_write(&self, key: &[u8], out: &mut [u8]) -> Codec;
    fn key_len(&self, buffer: &[u8]) -> Codec;
    fn key_order(&self, a: &[u8], b: &[u8]) -> u64;
    /// Kind 1 puts, 2 deletes.
    fn entry_write(&self, kind: u64, key: &[u8], value: &[u8], out: &mut [u8]) -> Codec;
}

/// What every call but mount is given.
pub struct On<'a> {
    pub region: &'a mut [u8],
    pub script: &'a [u8],
    pub state: State,
}

pub struct Mirror;

impl Subject for Mirror {
    fn mount(&self, region: &mut [u8], script: &[u8], start: u32, at: u64) -> Outcome {
        model::mount(region, script, start, at)
    }

    fn get(&self, on: On, key: &[u8], out: &mut [u8]) -> Outcome {
        model::get(on.region, on.script, on.state, key, out)
    }

    fn contains(&self, on: On, key: &[u8]) -> Outcome {
        model::contains(on.region, on.script, on.state, key)
    }

    fn put(&self, on: On, key: &[u8], value: &[u8]) -> Outcome {
        model::put(on.region, on.script, on.state, key, value)
    }

    fn delete(&self, on: On, key: &[u8]) -> Outcome {
        model::delete(on.region, on.script, on.state, key)
    }

    fn batch(&self, on: On, list: &[u8]) -> Outcome {
        model::batch(on.region, on.script, on.state, list)
    }

    fn ops(&self, on: On, ops: &[Op], pool: &[u8]) -> Outcome {
        model::ops(on.region, on.script, on.state, ops, pool)
    }

    fn scan(&self, on: On, prefix: &[u8], most: u64, out: &mut [u8]) -> Outcome {
        model::scan(on.region, on.script, on.state, prefix, most, out)
    }

    fn space(&self, state: State) -> Space {
        model::space(state)
    }

    fn key_read(&self, buffer: &[u8]) -> KeyRead {
        model::key_read(buffer)
    }

    fn key_write(&self, key: &[u8], out: &mut [u8]) -> Codec {
        model::key_write(key, out)
    }

    fn key_len(&self, buffer: &[u8]) -> Codec {
        model::key_len(buffer)
    }

    fn key_order(&self, a: &[u8], b: &[u8]) -> u64 {
        model::key_order(a, b)
    }

    fn entry_write(&self, kind: u64, key: &[u8], value: &[u8], out: &mut [u8]) -> Codec {
        model::entry_write(kind, key, value, out)
    }
}
