//! Runs the lines on the engine that stands under the Rust original and writes
//! what it answers.

use crate::hex::{hex, unhex};
use arxia_storage_flash::{poll_once, FlashKey};
use sequential_storage::cache::{Cache, Uncached};
use sequential_storage::flash::ScriptedFlash;
use sequential_storage::image;
use sequential_storage::map::{Key, MapConfig, MapStorage};
use sequential_storage::Error;

type Map = MapStorage<FlashKey, ScriptedFlash, Cache<Uncached, Uncached, Uncached, FlashKey>>;

struct Runner {
    map: Map,
    /// Where the iteration stands.
    place: usize,
    buffer: [u8; image::ITEM_MAX],
}

pub fn answers(input: &str) -> String {
    let mut runner = Runner::new();
    input.lines().map(|line| runner.answer(line)).collect()
}

/// The refusal's number: the outer failure is a future that did not complete.
fn number<T, W, E>(result: Result<Result<T, Error<E>>, W>) -> Result<T, u32> {
    let Ok(completed) = result else {
        return Err(4);
    };
    completed.map_err(|error| match error {
        Error::Storage { .. } => 5,
        Error::FullStorage => 6,
        Error::Corrupted {} => 7,
        Error::BufferTooBig => 9,
        Error::BufferTooSmall(_) => 10,
        Error::SerializationError(_) => 11,
        Error::ItemTooBig => 12,
        _ => 8,
    })
}

fn key(text: &str) -> FlashKey {
    let bytes = unhex(text);
    let serialized = [&[bytes.len() as u8], bytes.as_slice()].concat();
    let (key, _) = FlashKey::deserialize_from(&serialized).expect("a case's key is not over-long");
    key
}

impl Runner {
    fn new() -> Self {
        // The engine reckons with the bytes it is lent, so this range is only
        // what lets it begin.
        let config = MapConfig::try_new(0..8192).expect("two pages");
        Runner {
            map: MapStorage::new(ScriptedFlash::default(), config, Cache::new_uncached()),
            place: 0,
            buffer: [0; image::ITEM_MAX],
        }
    }

    fn answer(&mut self, line: &str) -> String {
        let words: Vec<&str> = line.split(' ').collect();
        let command = words[0];
        match words[..] {
            ["region", len, bytes] => {
                let mut region = unhex(bytes);
                region.resize(len.parse().expect("a length"), image::ERASED);
                *self.map.flash() = ScriptedFlash { region, ..ScriptedFlash::default() };
                self.place = 0;
                String::new()
            }
            ["script", codes] => {
                let flash = self.map.flash();
                flash.script = unhex(codes);
                (flash.at, flash.cut, flash.calls) = (0, false, 0);
                String::new()
            }
            ["good"] => format!("good {}\n", yes_or_no(image::is_good(self.region()))),
            ["bytes"] => {
                let last = self.region().iter().rposition(|&byte| byte != image::ERASED);
                let end = last.map_or(0, |last| last + 1);
                format!("bytes {}\n", hex(&self.region()[..end]))
            }
            _ if !image::is_good(self.region()) => format!("{command} bad image\n"),
            ["used"] => format!("used {}\n", image::used(self.region())),
            _ => {
                let said = self.item_call(&words).unwrap_or_else(|no| format!("refused {no}"));
                let flash = self.map.flash();
                let (calls, at, cut) = (flash.calls, flash.at, yes_or_no(flash.cut));
                format!("{command} {said} calls {calls} at {at} cut {cut}\n")
            }
        }
    }

    fn region(&mut self) -> &[u8] {
        &self.map.flash().region
    }

    /// One item call and its answer, or the number of its refusal.
    fn item_call(&mut self, words: &[&str]) -> Result<String, u32> {
        let buffer = &mut self.buffer;
        match words[..] {
            ["store", name, value] => {
                let (name, value) = (key(name), unhex(value));
                let value = value.as_slice();
                let stored = self.map.store_item(buffer, &name, &value);
                number(poll_once(stored)).map(|()| "ok".to_string())
            }
            ["remove", name] => {
                let name = key(name);
                let removed = self.map.remove_item(buffer, &name);
                number(poll_once(removed)).map(|()| "ok".to_string())
            }
            ["fetch", name] => {
                let name = key(name);
                let fetched = self.map.fetch_item::<&[u8]>(buffer, &name);
                Ok(match number(poll_once(fetched))? {
                    Some(value) => format!("found {}", hex(value)),
                    None => "absent".to_string(),
                })
            }
            ["open"] => {
                number(
                    poll_once(self.map.fetch_all_items(buffer)).map(|opened| opened.map(|_| ())),
                )?;
                self.place = 0;
                Ok("ok".to_string())
            }
            ["next"] => {
                let mut items = self.map.items_from(self.place);
                let item = number(poll_once(items.next::<&[u8]>(buffer)))?;
                self.place = items.place();
                Ok(match item {
                    Some((key, value)) => format!("item {} {}", hex(key.as_slice()), hex(value)),
                    None => "none".to_string(),
                })
            }
            _ => panic!("no such line: {words:?}"),
        }
    }
}

fn yes_or_no(yes: bool) -> &'static str {
    if yes {
        "yes"
    } else {
        "no"
    }
}
