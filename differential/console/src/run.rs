//! Doing the commands and writing the answers.

use crate::line::{read, Command};
use oracle::{erased, image, Outcome, Session, Space};

/// The longest value that a good image can hold, so that no get is refused for
/// its output.
const LONGEST_VALUE: usize = image::ITEM_MAX;

const HEALTHS: [&str; 3] = ["clean", "debris", "pending"];

pub struct Console {
    session: Session,
}

impl Console {
    pub fn new() -> Self {
        Console { session: Session::new(Vec::new()) }
    }

    /// One line in, its answer out.
    pub fn take(&mut self, line: &[u8], out: &mut Vec<u8>) {
        let done = read(line).and_then(|command| self.run(command, out));
        if done.is_none() {
            out.extend(b"bad line\n");
        }
    }

    /// Nothing, and nothing changed, if the command needs a store and there is
    /// none.
    fn run(&mut self, command: Command, out: &mut Vec<u8>) -> Option<()> {
        match command {
            Command::Mount(bytes) => self.mount(bytes, out),
            Command::Script(script) => self.session.set_script(&script, 0),
            _ if !self.session.is_mounted() => return None,
            Command::Put(key, value) => {
                let said = self.session.put(key, value);
                answer(out, "put", said, ["ok", ""], b"");
            }
            Command::Get(key) => {
                let mut value = [0; LONGEST_VALUE];
                let said = self.session.get(key, &mut value);
                let found = &value[..said.length as usize];
                answer(out, "get", said, ["found", "absent"], found);
            }
            Command::Has(key) => {
                let said = self.session.contains(key);
                answer(out, "has", said, ["yes", "no"], b"");
            }
            Command::Del(key) => {
                let said = self.session.delete(key);
                answer(out, "del", said, ["yes", "no"], b"");
            }
            Command::Batch(list) => {
                let said = self.session.batch(&list);
                answer(out, "batch", said, ["ok", ""], b"");
            }
            Command::Scan(prefix, most) => self.scan(prefix, most, out),
            Command::Free => self.free(out),
        }
        Some(())
    }

    /// Erased bytes at address 0; script and position go on.
    fn mount(&mut self, bytes: usize, out: &mut Vec<u8>) {
        let at = self.session.with_flash(|flash| {
            flash.region = erased(bytes);
            flash.at
        });
        let said = self.session.mount(0, at);
        answer(out, "mount", said, ["ok", ""], b"");
    }

    fn scan(&mut self, prefix: &[u8], most: u64, out: &mut Vec<u8>) {
        // All records of the region have room.
        let room = self.session.with_flash(|flash| flash.region.len());
        let mut records = vec![0; room];
        let said = self.session.scan(prefix, most, &mut records);
        let count = said.count.to_string();
        answer(out, "scan", said, ["finished", "stopped"], count.as_bytes());
        let mut from = 0;
        while from < said.length as usize {
            let record = image::record_at(&records, from).expect("the scan wrote records");
            let size = record.size();
            let hex: String =
                records[from..from + size].iter().map(|byte| format!("{byte:02x}")).collect();
            out.extend(format!("item {hex}\n").bytes());
            from += size;
        }
    }

    /// Bytes left, bytes used, user records, no item call, health.
    fn free(&mut self, out: &mut Vec<u8>) {
        let Space { used, free, takes } = self.session.space();
        let health = HEALTHS[self.session.health() as usize];
        out.extend(format!("free {free} {used} {takes} 0 {health}\n").bytes());
    }
}

/// Command, answer, then the refusal's number or the value where there is one,
/// item calls, health.
fn answer(out: &mut Vec<u8>, command: &str, said: Outcome, words: [&str; 2], value: &[u8]) {
    let word = match said.answer {
        0 => "refused",
        1 => words[0],
        _ => words[1],
    };
    out.extend(format!("{command} {word} ").bytes());
    if said.answer == 0 {
        out.extend(format!("{} ", said.number).bytes());
    } else if !value.is_empty() {
        out.extend(value);
        out.push(b' ');
    }
    let health = match (command, said.answer) {
        // A refused mount leaves no store that could have one.
        ("mount", 0) => "-",
        _ => HEALTHS[said.health as usize],
    };
    out.extend(format!("{} {health}\n", said.calls).bytes());
}
