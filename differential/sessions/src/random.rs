//! Random lines from a generator of its own, the same on every run.

use crate::text::Text;

const LINES: usize = 170;

pub struct Draw(u64);

impl Draw {
    /// A seed's own numbers; mixing keeps neighbouring seeds apart.
    pub fn new(seed: u64) -> Self {
        Draw(seed.wrapping_mul(0x9e37_79b9_7f4a_7c15) | 1)
    }

    pub fn below(&mut self, limit: u64) -> u64 {
        self.0 ^= self.0 << 13;
        self.0 ^= self.0 >> 7;
        self.0 ^= self.0 << 17;
        (self.0 >> 11) % limit
    }

    fn key(&mut self) -> String {
        match self.below(12) {
            0 => "k".repeat(90 + self.below(9) as usize),
            1..=4 => format!("m{}", self.below(20)),
            _ => ["a", "b", "c", "d"][self.below(4) as usize].to_string(),
        }
    }

    fn value(&mut self) -> String {
        let len = match self.below(12) {
            0 => 250 + self.below(10),
            1..=2 => 40 + self.below(100),
            _ => 1 + self.below(5),
        };
        let letter = (b'0' + self.below(10) as u8) as char;
        letter.to_string().repeat(len as usize)
    }

    fn script(&mut self) -> String {
        let mut line = String::from("script");
        for _ in 0..self.below(14) {
            let code = match self.below(60) {
                0..=47 => 0,
                48 => 127,
                _ => 1 + self.below(15),
            };
            let effect = if code > 0 { self.below(2) * 128 } else { 0 };
            line.push_str(&format!(" {:02x}", code + effect));
        }
        line
    }

    fn operation(&mut self) -> String {
        let key = self.key();
        if self.below(5) < 3 {
            format!("put {key} {}", self.value())
        } else {
            format!("del {key}")
        }
    }

    pub fn line(&mut self) -> String {
        match self.below(40) {
            0..=6 => self.script(),
            7 => format!("mount {}", [8192, 8192, 12288, 4096][self.below(4) as usize]),
            8 => "put m1 again".to_string(),
            9 => ["scan", "put a", "mount 99999", "script zz"][self.below(4) as usize].to_string(),
            10..=17 => format!("put {} {}", self.key(), self.value()),
            18..=20 => format!("get {}", self.key()),
            21..=22 => format!("has {}", self.key()),
            23..=25 => format!("del {}", self.key()),
            26..=33 => {
                let count = 1 + self.below(4);
                let operations: Vec<String> = (0..count).map(|_| self.operation()).collect();
                format!("batch {}", operations.join("; "))
            }
            34..=35 => format!("scan m {}", self.below(10)),
            36 => "scan m".to_string(),
            _ => format!("scan - {}", self.below(6)),
        }
    }
}

pub fn lines(text: &mut Text) {
    let mut draw = Draw(0x5eed_0000_0001);
    text.lines(&["script", "mount 8192"]);
    for number in 0..LINES {
        let line = draw.line();
        let mounts = line.starts_with("mount");
        text.line(line);
        // The room spends nothing of the script and draws nothing.
        if number % 2 == 1 {
            text.line("free");
        }
        // A cut or a refused mount would leave too little of the rest, so a
        // sure mount comes often enough; not always at once.
        if number % 25 == 24 || (mounts && draw.below(2) == 0) {
            text.lines(&["script", "mount 8192"]);
        }
    }
    text.lines(&["script", "mount 8192", "put a 1", "scan -"]);
}
