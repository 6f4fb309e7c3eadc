//! The text under construction.

pub struct Text(Vec<u8>);

impl Text {
    pub fn new() -> Self {
        Text(Vec::new())
    }

    pub fn line(&mut self, line: impl AsRef<[u8]>) {
        self.0.extend(line.as_ref());
        self.0.push(b'\n');
    }

    pub fn lines(&mut self, lines: &[&str]) {
        for line in lines {
            self.line(line);
        }
    }

    /// Words of any bytes with one space between them.
    pub fn words(&mut self, words: &[&[u8]]) {
        self.line(words.join(&b' '));
    }

    /// The whole text. Its last line has no newline, which counts all the same.
    pub fn bytes(&self) -> &[u8] {
        self.0.strip_suffix(b"\n").unwrap_or(&self.0)
    }
}

/// A script line: `passing` passes, then these codes.
pub fn script(passing: usize, codes: &[u8]) -> String {
    let mut line = String::from("script");
    line.push_str(&" 00".repeat(passing));
    for code in codes {
        line.push_str(&format!(" {code:02x}"));
    }
    line
}
