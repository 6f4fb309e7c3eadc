//! Single calls from any state on any bytes of any length: what a caller can
//! lend, whether or not a run would ever come there.

use crate::bench::Bench;
use crate::draw::Draw;
use crate::material::{any_region, position, script};
use crate::runs::call;
use outcome::State;

pub fn some(bench: &mut Bench, draw: &mut Draw) {
    for _ in 0..10 {
        let len = match draw.below(6) {
            0 => draw.below(40),
            1 => draw.between(40, 700),
            2 => draw.between(700, 3000),
            _ => 8192,
        };
        let region = any_region(draw, len);
        let script = script(draw);
        let state = State {
            health: draw.below(3) as u64,
            at: position(draw, &script),
            cut: u64::from(draw.chance(8)),
            ..State::default()
        };
        bench.stand(&region, &script, state);
        // A few more calls go on from where the first one led.
        for _ in 0..draw.between(1, 3) {
            let call = call(draw);
            bench.run_untrue(&call, None);
            bench.run(&call);
        }
    }
}
