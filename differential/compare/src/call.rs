//! One public call with its arguments, and doing it on either side.

use crate::subject::{On, Subject};
use oracle::Session;
use outcome::{Op, Outcome, State};

#[derive(Clone, Debug)]
pub enum Call {
    Mount { start: u32, at: u64 },
    Get { key: Vec<u8>, out: usize },
    Contains { key: Vec<u8> },
    Put { key: Vec<u8>, value: Vec<u8> },
    Delete { key: Vec<u8> },
    Batch { list: Vec<u8> },
    Ops { ops: Vec<Op>, pool: Vec<u8> },
    Scan { prefix: Vec<u8>, most: u64, out: usize },
}

impl Call {
    pub const KINDS: [&'static str; 8] =
        ["mount", "get", "contains", "put", "delete", "batch", "ops", "scan"];

    /// The place of this call's kind in `KINDS`.
    pub fn kind(&self) -> usize {
        match self {
            Call::Mount { .. } => 0,
            Call::Get { .. } => 1,
            Call::Contains { .. } => 2,
            Call::Put { .. } => 3,
            Call::Delete { .. } => 4,
            Call::Batch { .. } => 5,
            Call::Ops { .. } => 6,
            Call::Scan { .. } => 7,
        }
    }

    /// An output filled with a pattern, so that a byte written where none
    /// should be shows.
    pub fn output(&self) -> Vec<u8> {
        match self {
            Call::Get { out, .. } | Call::Scan { out, .. } => vec![0xa5; *out],
            _ => Vec::new(),
        }
    }

    /// The operation list of a batch.
    pub fn list(&self) -> Option<&[u8]> {
        match self {
            Call::Batch { list } => Some(list),
            _ => None,
        }
    }

    pub fn on_original(&self, session: &mut Session, out: &mut [u8]) -> Outcome {
        match self {
            Call::Mount { start, at } => session.mount(*start, *at),
            Call::Get { key, .. } => session.get(key, out),
            Call::Contains { key } => session.contains(key),
            Call::Put { key, value } => session.put(key, value),
            Call::Delete { key } => session.delete(key),
            Call::Batch { list } => session.batch(list),
            Call::Ops { ops, pool } => session.ops(ops, pool),
            Call::Scan { prefix, most, .. } => session.scan(prefix, *most, out),
        }
    }

    pub fn on_subject(
        &self,
        subject: &dyn Subject,
        region: &mut [u8],
        script: &[u8],
        state: State,
        out: &mut [u8],
    ) -> Outcome {
        let on = On { region, script, state };
        match self {
            Call::Mount { start, at } => subject.mount(on.region, script, *start, *at),
            Call::Get { key, .. } => subject.get(on, key, out),
            Call::Contains { key } => subject.contains(on, key),
            Call::Put { key, value } => subject.put(on, key, value),
            Call::Delete { key } => subject.delete(on, key),
            Call::Batch { list } => subject.batch(on, list),
            Call::Ops { ops, pool } => subject.ops(on, ops, pool),
            Call::Scan { prefix, most, .. } => subject.scan(on, prefix, *most, out),
        }
    }
}
