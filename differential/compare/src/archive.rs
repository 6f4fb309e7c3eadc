//! The proved code, through its functions for C. A lent slice passes as its
//! pointer and its length.

use crate::subject::{On, Subject};
use outcome::{Codec, KeyRead, Op, Outcome, Space, State};

/// A function that takes region, script and state, and then some more.
macro_rules! on_state {
    ($($name:ident($($more:ty),*);)*) => {
        extern "C" {
            $(fn $name(
                _: *mut u8, _: usize, _: *const u8, _: usize, _: State, $(_: $more),*
            ) -> Outcome;)*
        }
    };
}

on_state! {
    takes_get(*const u8, usize, *mut u8, usize);
    takes_contains(*const u8, usize);
    takes_put(*const u8, usize, *const u8, usize);
    takes_delete(*const u8, usize);
    takes_batch(*const u8, usize);
    takes_ops(*const Op, usize, *const u8, usize);
    takes_scan(*const u8, usize, u64, *mut u8, usize);
}

extern "C" {
    fn takes_mount(_: *mut u8, _: usize, _: *const u8, _: usize, start: u32, at: u64) -> Outcome;
    fn takes_space(_: State) -> Space;
    fn takes_key_read(_: *const u8, _: usize) -> KeyRead;
    fn takes_key_write(_: *const u8, _: usize, _: *mut u8, _: usize) -> Codec;
    fn takes_key_len(_: *const u8, _: usize) -> Codec;
    fn takes_key_order(_: *const u8, _: usize, _: *const u8, _: usize) -> u64;
    fn takes_entry_write(
        kind: u64,
        _: *const u8,
        _: usize,
        _: *const u8,
        _: usize,
        _: *mut u8,
        _: usize,
    ) -> Codec;
}

/// A call with region and script, and then some more. Every pointer comes from a
/// slice that outlives the call, with that slice's own length, and no two of the
/// mutable ones overlap.
macro_rules! call {
    ($name:ident($region:expr, $script:expr, $($more:expr),*)) => {{
        let (region, script) = ($region, $script);
        unsafe {
            $name(region.as_mut_ptr(), region.len(), script.as_ptr(), script.len(), $($more),*)
        }
    }};
}

pub struct Archive;

#[rustfmt::skip]
impl Subject for Archive {
    fn mount(&self, region: &mut [u8], script: &[u8], start: u32, at: u64) -> Outcome {
        call!(takes_mount(region, script, start, at))
    }

    fn get(&self, on: On, key: &[u8], out: &mut [u8]) -> Outcome {
        call!(takes_get(
            on.region, on.script, on.state,
            key.as_ptr(), key.len(), out.as_mut_ptr(), out.len()
        ))
    }

    fn contains(&self, on: On, key: &[u8]) -> Outcome {
        call!(takes_contains(on.region, on.script, on.state, key.as_ptr(), key.len()))
    }

    fn put(&self, on: On, key: &[u8], value: &[u8]) -> Outcome {
        call!(takes_put(
            on.region, on.script, on.state,
            key.as_ptr(), key.len(), value.as_ptr(), value.len()
        ))
    }

    fn delete(&self, on: On, key: &[u8]) -> Outcome {
        call!(takes_delete(on.region, on.script, on.state, key.as_ptr(), key.len()))
    }

    fn batch(&self, on: On, list: &[u8]) -> Outcome {
        call!(takes_batch(on.region, on.script, on.state, list.as_ptr(), list.len()))
    }

    fn ops(&self, on: On, ops: &[Op], pool: &[u8]) -> Outcome {
        call!(takes_ops(
            on.region, on.script, on.state,
            ops.as_ptr(), ops.len(), pool.as_ptr(), pool.len()
        ))
    }

    fn scan(&self, on: On, prefix: &[u8], most: u64, out: &mut [u8]) -> Outcome {
        call!(takes_scan(
            on.region, on.script, on.state,
            prefix.as_ptr(), prefix.len(), most, out.as_mut_ptr(), out.len()
        ))
    }

    fn space(&self, state: State) -> Space {
        // Numbers alone cross, by value.
        unsafe { takes_space(state) }
    }

    // Of these, too, each pointer goes with its slice's own length.
    fn key_read(&self, buffer: &[u8]) -> KeyRead {
        unsafe { takes_key_read(buffer.as_ptr(), buffer.len()) }
    }

    fn key_write(&self, key: &[u8], out: &mut [u8]) -> Codec {
        unsafe { takes_key_write(key.as_ptr(), key.len(), out.as_mut_ptr(), out.len()) }
    }

    fn key_len(&self, buffer: &[u8]) -> Codec {
        unsafe { takes_key_len(buffer.as_ptr(), buffer.len()) }
    }

    fn key_order(&self, a: &[u8], b: &[u8]) -> u64 {
        unsafe { takes_key_order(a.as_ptr(), a.len(), b.as_ptr(), b.len()) }
    }

    fn entry_write(&self, kind: u64, key: &[u8], value: &[u8], out: &mut [u8]) -> Codec {
        unsafe {
            takes_entry_write(
                kind, key.as_ptr(), key.len(), value.as_ptr(), value.len(), out.as_mut_ptr(), out.len(),
            )
        }
    }
}
