//! The original's calls as they are timed, on its store and not through the
//! oracle: no health is read from a text, and nothing is walked for numbers.

use crate::call::Call;
use arxia_storage::{BatchOp, StorageBackend};
use arxia_storage_flash::FlashStorage;
use sequential_storage::flash::ScriptedFlash;
use sequential_storage::image::{is_good, write_record, HEAD};

type Store = FlashStorage<ScriptedFlash>;

/// Same: what the proved call does besides the original's part, too, which is
/// the image test (by a hash set of the keys), the list read, the value copied
/// into an output, the records of a scan written. Less: the original's part
/// alone, with the operations ready, and a scan that only counts.
#[derive(Clone, Copy)]
pub enum Work {
    Same,
    Less,
}

/// A mounted store, or its medium before a mount.
pub enum Original {
    Loose(ScriptedFlash),
    Mounted(Box<Store>),
}

impl Original {
    /// Ready for the call: mounted on these bytes, or about to be.
    pub fn before(call: &Call, image: &[u8]) -> Self {
        let flash = ScriptedFlash { region: image.to_vec(), ..ScriptedFlash::default() };
        match call {
            Call::Mount { .. } => Original::Loose(flash),
            _ => match Store::mount(flash, 0..image.len() as u32) {
                Ok(store) => Original::Mounted(Box::new(store)),
                Err(failure) => panic!("the image mounts: {:?}", failure.error),
            },
        }
    }

    /// The bytes after a call.
    pub fn region(self) -> Vec<u8> {
        match self {
            Original::Loose(flash) => flash.region,
            Original::Mounted(store) => store.into_flash().region,
        }
    }

    /// How many item calls there were.
    pub fn item_calls(&self) -> u64 {
        match self {
            Original::Loose(flash) => flash.calls,
            Original::Mounted(store) => store.flash_mut().calls,
        }
    }

    /// Every call here succeeds.
    pub fn run(self, call: &Call, ops: &[BatchOp], work: Work, out: &mut [u8]) -> Self {
        match self {
            Original::Loose(flash) => {
                if let Work::Same = work {
                    assert!(is_good(&flash.region));
                }
                let end = flash.region.len() as u32;
                match Store::mount(flash, 0..end) {
                    Ok(store) => Original::Mounted(Box::new(store)),
                    Err(failure) => panic!("the image mounts: {:?}", failure.error),
                }
            }
            Original::Mounted(mut store) => {
                match work {
                    Work::Same => same(&mut store, call, out),
                    Work::Less => less(&mut store, call, ops),
                }
                Original::Mounted(store)
            }
        }
    }
}

fn same(store: &mut Store, call: &Call, out: &mut [u8]) {
    assert!(is_good(&store.flash_mut().region));
    match call {
        Call::Get { key, .. } => {
            let value = store.get(key).unwrap().unwrap();
            out[..value.len()].copy_from_slice(&value);
        }
        Call::Batch { list } => {
            let ops = oracle::operations(list).unwrap();
            store.apply_batch(&ops).unwrap();
        }
        Call::Scan { prefix, .. } => {
            let mut length = 0;
            let write = &mut |key: &[u8], value: &[u8]| {
                let end = length + HEAD + key.len() + value.len();
                write_record(&mut out[length..end], key, value);
                length = end;
                true
            };
            store.scan_prefix(prefix, write).unwrap();
        }
        other => less(store, other, &[]),
    }
}

fn less(store: &mut Store, call: &Call, ops: &[BatchOp]) {
    match call {
        Call::Get { key, .. } => assert!(store.get(key).unwrap().is_some()),
        Call::Contains { key } => assert!(store.contains(key).unwrap()),
        Call::Put { key, value } => store.put(key, value).unwrap(),
        Call::Delete { key } => assert!(store.delete(key).unwrap()),
        Call::Batch { .. } => store.apply_batch(ops).unwrap(),
        Call::Scan { prefix, .. } => {
            let mut count = 0;
            let counts = &mut |_: &[u8], _: &[u8]| {
                count += 1;
                true
            };
            store.scan_prefix(prefix, counts).unwrap();
            std::hint::black_box(count);
        }
        Call::Mount { .. } | Call::Ops { .. } => unreachable!("not measured here"),
    }
}
