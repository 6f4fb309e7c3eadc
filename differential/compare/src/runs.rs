//! Random runs: one medium, mounted and mounted again, with calls, changed
//! scripts and, now and then, bytes damaged and mended.

use crate::bench::Bench;
use crate::call::Call;
use crate::draw::Draw;
use crate::material::{any_region, damage, key, list, ops, position, script, value};

pub fn one(bench: &mut Bench, draw: &mut Draw) {
    let len = match draw.below(50) {
        0 => 65536,
        1..=3 => 16384,
        4..=7 => 12288,
        _ => 8192,
    };
    let region = any_region(draw, len);
    bench.insert(&region, &script(draw));
    for _ in 0..draw.between(4, 60) {
        if bench.is_mounted() {
            step(bench, draw);
        } else if !mount(bench, draw) && draw.chance(50) {
            // The medium may be one that no mount will take.
            break;
        }
    }
}

fn mount(bench: &mut Bench, draw: &mut Draw) -> bool {
    if draw.chance(40) {
        bench.set_script(&script(draw), 0);
    }
    let at = match draw.below(6) {
        0 => draw.below(50) as u64,
        1 => 0,
        _ => bench.at(),
    };
    let start = match draw.below(30) {
        0 => draw.pick(&[1, 4095, 0xffff_e000, 0xffff_f000, u32::MAX]),
        1 => draw.pick(&[4096, 0x0010_0000, 0xfff0_0000]),
        _ => 0,
    };
    bench.run(&Call::Mount { start, at }).answer == 1
}

fn step(bench: &mut Bench, draw: &mut Draw) {
    match draw.below(60) {
        0..=8 => {
            let script = script(draw);
            let at = position(draw, &script);
            bench.set_script(&script, at);
        }
        9..=12 => {
            mount(bench, draw);
        }
        13 => broken_for_a_while(bench, draw),
        _ => {
            bench.run(&call(draw));
        }
    }
}

/// Calls on a damaged image, then on the bytes as they were.
fn broken_for_a_while(bench: &mut Bench, draw: &mut Draw) {
    let sound = bench.region().to_vec();
    let mut broken = sound.clone();
    damage(draw, &mut broken);
    bench.set_region(&broken);
    for _ in 0..3 {
        bench.run(&call(draw));
    }
    bench.set_region(&sound);
}

/// Any call but mount.
pub fn call(draw: &mut Draw) -> Call {
    match draw.below(12) {
        0..=1 => Call::Get { key: key(draw), out: draw.pick(&[512, 512, 512, 0, 1, 3, 255, 256]) },
        2 => Call::Contains { key: key(draw) },
        3..=5 => Call::Put { key: key(draw), value: value(draw) },
        6..=7 => Call::Delete { key: key(draw) },
        8 => Call::Batch { list: list(draw) },
        9 => ops(draw),
        _ => scan(draw),
    }
}

fn scan(draw: &mut Draw) -> Call {
    let prefix = match draw.below(8) {
        0 => key(draw),
        1 => vec![b'k'],
        2 => vec![b'a'],
        3 => vec![b'x', 0],
        _ => Vec::new(),
    };
    let most = match draw.below(8) {
        0 => draw.below(4) as u64,
        1 => draw.between(7, 17) as u64,
        2 => 1 << 63,
        _ => u64::MAX,
    };
    let out = match draw.below(5) {
        0 => draw.below(300),
        1 => draw.between(300, 3000),
        _ => 9000,
    };
    Call::Scan { prefix, most, out }
}
