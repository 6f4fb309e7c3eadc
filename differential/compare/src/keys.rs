//! The key codec on both sides: every first byte and every length of a buffer,
//! every length of a key and of an output around the limits, and the order of
//! pairs of keys.

use crate::bench::hex;
use crate::subject::Subject;
use crate::tally::Tally;
use std::fmt::Debug;

/// The bytes behind a first byte, and those of a key. A filling's bytes differ
/// where they can, so that a shifted copy shows.
const FILLINGS: [fn(usize) -> u8; 4] =
    [|_| 0, |_| 0xff, |place| (place + 1) as u8, |place| (151 * place + 7) as u8];

/// What an output holds before it is written.
const STALE: [u8; 2] = [0xa5, 0xff];

const LONGEST_BUFFER: usize = 99;
const LONGEST_OUTPUT: usize = 98;
const LONGEST_KEY: usize = 96;

pub fn all(subject: &dyn Subject, tally: &mut Tally) {
    let mut keys = Keys { subject, tally };
    keys.buffers();
    keys.outputs();
    keys.byte_pairs();
    keys.key_pairs();
}

struct Keys<'a> {
    subject: &'a dyn Subject,
    tally: &'a mut Tally,
}

fn filled(filling: fn(usize) -> u8, len: usize) -> Vec<u8> {
    (0..len).map(filling).collect()
}

impl Keys<'_> {
    /// Reading, and the length question, which sees the first byte alone.
    fn buffers(&mut self) {
        self.buffer(&[]);
        for filling in FILLINGS {
            for len in 1..=LONGEST_BUFFER {
                let mut buffer = filled(filling, len);
                for first in 0..=255 {
                    buffer[0] = first;
                    self.buffer(&buffer);
                }
            }
        }
    }

    /// Writing, keys that are too long among them.
    fn outputs(&mut self) {
        for filling in FILLINGS {
            for len in (0..=LONGEST_BUFFER).chain([255, 256, 257, 65536]) {
                let key = filled(filling, len);
                for room in 0..=LONGEST_OUTPUT {
                    for stale in STALE {
                        self.output(&key, &vec![stale; room]);
                    }
                }
            }
        }
    }

    /// Every pair of bytes, alone and behind all that a key may have before them.
    fn byte_pairs(&mut self) {
        for before in [0, LONGEST_KEY - 1] {
            let mut keys = [vec![b'k'; before + 1], vec![b'k'; before + 1]];
            for a in 0..=255 {
                for b in 0..=255 {
                    (keys[0][before], keys[1][before]) = (a, b);
                    self.pair(&keys[0], &keys[1]);
                }
            }
        }
    }

    /// Every pair of keys of all lengths: prefixes of each other where the filling
    /// is the same. Zeros are what a key is padded with, so 61 and 61 00 are among
    /// them.
    fn key_pairs(&mut self) {
        let mut keys = Vec::new();
        for filling in FILLINGS {
            keys.extend((0..=LONGEST_KEY).map(|len| filled(filling, len)));
        }
        keys.extend((0..LONGEST_KEY).map(|zeros| [vec![0x61], vec![0; zeros]].concat()));
        for a in &keys {
            for b in &keys {
                self.pair(a, b);
            }
        }
    }

    fn buffer(&mut self, buffer: &[u8]) {
        self.tally.keys.reads += 1;
        let (wanted, got) = (oracle::key_read(buffer), self.subject.key_read(buffer));
        self.same("read", &[buffer], wanted, got);
        self.tally.keys.lengths += 1;
        let (wanted, got) = (oracle::key_len(buffer), self.subject.key_len(buffer));
        self.same("length of", &[buffer], wanted, got);
    }

    /// Every byte of the output is compared, the one behind what is written too.
    fn output(&mut self, key: &[u8], stale: &[u8]) {
        self.tally.keys.writes += 1;
        let (mut wanted_out, mut out) = (stale.to_vec(), stale.to_vec());
        let wanted = oracle::key_write(key, &mut wanted_out);
        let got = self.subject.key_write(key, &mut out);
        self.same("write", &[key, stale], (wanted, wanted_out), (got, out));
    }

    fn pair(&mut self, a: &[u8], b: &[u8]) {
        self.tally.keys.orders += 1;
        let (wanted, got) = (oracle::key_order(a, b), self.subject.key_order(a, b));
        self.same("order of", &[a, b], wanted, got);
    }

    fn same<T: PartialEq + Debug>(&mut self, what: &str, given: &[&[u8]], wanted: T, got: T) {
        if wanted != got {
            let given: Vec<String> = given.iter().map(|bytes| hex(bytes)).collect();
            self.tally.difference(|| {
                format!("key: {what} {}\noriginal {wanted:?}\nsubject  {got:?}\n", given.join(", "))
            });
        }
    }
}
