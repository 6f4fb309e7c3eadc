//! Document 01's operation list and its operation structs, read into the
//! original's batch operations.

use arxia_storage::BatchOp;
use outcome::Op;
use sequential_storage::image::HEAD;

/// All operations, or nothing if any record of the list is malformed: the
/// whole list is looked at before any operation is judged.
pub fn operations(list: &[u8]) -> Option<Vec<BatchOp<'_>>> {
    let mut rest = list;
    let mut ops = Vec::new();
    while !rest.is_empty() {
        let head = rest.get(..HEAD)?;
        let size = u32::from_le_bytes([head[0], head[1], head[2], head[3]]) as usize;
        let kind = u16::from_le_bytes([head[4], head[5]]);
        let value_len = usize::from(u16::from_le_bytes([head[6], head[7]]));
        let key_len = usize::from(head[8]);
        if size != HEAD + key_len + value_len {
            return None;
        }
        let (key, value) = rest.get(HEAD..size)?.split_at(key_len);
        ops.push(match kind {
            1 => BatchOp::Put { key, value },
            2 if value.is_empty() => BatchOp::Delete { key },
            _ => return None,
        });
        rest = &rest[size..];
    }
    Some(ops)
}

/// All operations that the structs name, or nothing if any of them has a part
/// outside the pool or another kind.
pub fn named<'a>(ops: &[Op], pool: &'a [u8]) -> Option<Vec<BatchOp<'a>>> {
    let part = |at: usize, len: usize| pool.get(at..at.checked_add(len)?);
    let one = |op: &Op| {
        let key = part(op.key_at, op.key_len)?;
        let value = part(op.value_at, op.value_len)?;
        match op.kind {
            1 => Some(BatchOp::Put { key, value }),
            2 if value.is_empty() => Some(BatchOp::Delete { key }),
            _ => None,
        }
    };
    ops.iter().map(one).collect()
}
