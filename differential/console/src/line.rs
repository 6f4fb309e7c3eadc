//! Reading one line of the console: a command, or nothing if it is a bad line.

use oracle::image::{write_record, HEAD};

/// Largest region that the console mounts.
const MOST_BYTES: u64 = 65536;

#[derive(Debug, PartialEq, Eq)]
pub enum Command<'a> {
    Mount(usize),
    Script(Vec<u8>),
    Put(&'a [u8], &'a [u8]),
    Get(&'a [u8]),
    Has(&'a [u8]),
    Del(&'a [u8]),
    /// Already as document 01's operation list.
    Batch(Vec<u8>),
    Scan(&'a [u8], u64),
    Free,
}

pub fn read(line: &[u8]) -> Option<Command<'_>> {
    let words = words(line);
    let (name, rest) = words.split_first()?;
    Some(match (*name, rest) {
        (b"mount", [bytes]) => Command::Mount(region_size(bytes)?),
        (b"script", codes) => {
            Command::Script(codes.iter().map(|code| hex(code)).collect::<Option<_>>()?)
        }
        (b"put", [key, value]) => Command::Put(key, value),
        (b"get", [key]) => Command::Get(key),
        (b"has", [key]) => Command::Has(key),
        (b"del", [key]) => Command::Del(key),
        (b"batch", _) => Command::Batch(operations(after(line, name))?),
        (b"scan", [prefix]) => Command::Scan(empty_if_dash(prefix), u64::MAX),
        (b"scan", [prefix, most]) => Command::Scan(empty_if_dash(prefix), number(most)?),
        (b"free", []) => Command::Free,
        _ => return None,
    })
}

/// Only spaces divide words; tabs, carriage returns and the rest belong to them.
fn words(line: &[u8]) -> Vec<&[u8]> {
    line.split(|&byte| byte == b' ').filter(|word| !word.is_empty()).collect()
}

/// What follows the first word, which is `name`.
fn after<'a>(line: &'a [u8], name: &[u8]) -> &'a [u8] {
    let spaces = line.iter().take_while(|&&byte| byte == b' ').count();
    &line[spaces + name.len()..]
}

fn empty_if_dash(prefix: &[u8]) -> &[u8] {
    if prefix == b"-" {
        b""
    } else {
        prefix
    }
}

/// Decimal digits, at most 64 bits; leading zeros are fine.
fn number(word: &[u8]) -> Option<u64> {
    word.iter().try_fold(0u64, |sum, byte| {
        let digit = byte.is_ascii_digit().then(|| u64::from(byte - b'0'))?;
        sum.checked_mul(10)?.checked_add(digit)
    })
}

fn region_size(word: &[u8]) -> Option<usize> {
    let bytes = number(word)?;
    (bytes <= MOST_BYTES).then_some(bytes as usize)
}

/// Exactly two hex digits.
fn hex(word: &[u8]) -> Option<u8> {
    let [high, low] = word else { return None };
    Some(digit(*high)? * 16 + digit(*low)?)
}

fn digit(byte: u8) -> Option<u8> {
    (byte as char).to_digit(16).map(|digit| digit as u8)
}

/// Operations with semicolons between them; an empty one makes the line bad.
fn operations(text: &[u8]) -> Option<Vec<u8>> {
    let mut list = Vec::new();
    for part in text.split(|&byte| byte == b';') {
        match words(part).as_slice() {
            [b"put", key, value] => append(&mut list, 1, key, value)?,
            [b"del", key] => append(&mut list, 2, key, b"")?,
            _ => return None,
        }
    }
    Some(list)
}

/// One list record; a key or value that its fields cannot hold makes the line
/// bad.
fn append(list: &mut Vec<u8>, kind: u8, key: &[u8], value: &[u8]) -> Option<()> {
    if key.len() > 255 || value.len() > 65535 {
        return None;
    }
    let from = list.len();
    list.resize(from + HEAD + key.len() + value.len(), 0);
    write_record(&mut list[from..], key, value);
    list[from + 4] = kind;
    Some(())
}
