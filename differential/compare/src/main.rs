//! Runs the same calls on the Rust original and on a subject, and says where
//! they differ; or measures what the calls cost on either side.

#[cfg(feature = "rattle")]
mod archive;
mod bench;
mod call;
mod clock;
mod draw;
mod edges;
mod findings;
mod keys;
mod large;
mod loose;
mod material;
mod runs;
mod speed;
mod subject;
mod sweeps;
mod tally;
mod untrue;

use bench::Bench;
use std::path::Path;
use std::process::ExitCode;
use subject::{Mirror, Subject};

const USAGE: &str = "compare mirror|rattle CALLS SEED [short]
compare speed mirror|rattle OUT.csv [quick]
compare table BEFORE.csv [AFTER.csv]
compare plot OUT.svg BEFORE.csv [AFTER.csv]";

fn main() -> ExitCode {
    let args: Vec<String> = std::env::args().skip(1).collect();
    let args: Vec<&str> = args.iter().map(String::as_str).collect();
    match args[..] {
        ["speed", name, out, ref more @ ..] => with(name, |subject| {
            told(speed::all(subject.as_ref(), out.as_ref(), more.contains(&"quick")))
        }),
        ["table", before, ref more @ ..] => told(speed::summary(before.as_ref(), first(more))),
        ["plot", out, before, ref more @ ..] => {
            let drawn = speed::plot(out.as_ref(), before.as_ref(), first(more));
            told(drawn.map(|()| String::new()))
        }
        [name, calls, seed, ref more @ ..] => {
            let (Ok(calls), Ok(seed)) = (calls.parse(), seed.parse()) else {
                return wrong(USAGE);
            };
            with(name, |subject| compare(subject, calls, seed, more.contains(&"short")))
        }
        _ => wrong(USAGE),
    }
}

fn first<'a>(more: &[&'a str]) -> Option<&'a Path> {
    more.first().map(|word| Path::new(*word))
}

fn told(result: Result<String, String>) -> ExitCode {
    match result {
        Ok(text) => {
            print!("{text}");
            ExitCode::SUCCESS
        }
        Err(text) => {
            eprintln!("{text}");
            ExitCode::FAILURE
        }
    }
}

fn wrong(text: &str) -> ExitCode {
    eprintln!("{text}");
    ExitCode::from(2)
}

fn with(name: &str, run: impl FnOnce(Box<dyn Subject>) -> ExitCode) -> ExitCode {
    match subject(name) {
        Some(subject) => run(subject),
        None => wrong(&format!(
            "no subject {name}: it is mirror, or rattle in a build with that feature"
        )),
    }
}

fn subject(name: &str) -> Option<Box<dyn Subject>> {
    match name {
        "mirror" => Some(Box::new(Mirror)),
        #[cfg(feature = "rattle")]
        "rattle" => Some(Box::new(archive::Archive)),
        _ => None,
    }
}

/// The key codec, the findings and the edges first, always whole; short leaves
/// out what takes long. Then random calls until there are `calls`.
fn compare(subject: Box<dyn Subject>, calls: u64, seed: u64, short: bool) -> ExitCode {
    let mut bench = Bench::new(subject);
    keys::all(bench.subject.as_ref(), &mut bench.tally);
    findings::all(&mut bench);
    edges::all(&mut bench);
    untrue::all(&mut bench);
    if !short {
        large::all(&mut bench);
    }
    sweeps::all(&mut bench);
    let mut draw = draw::Draw::new(seed);
    while bench.tally.calls() < calls {
        runs::one(&mut bench, &mut draw);
        loose::some(&mut bench, &mut draw);
    }
    bench.tally.print();
    if bench.tally.differences() == 0 {
        ExitCode::SUCCESS
    } else {
        ExitCode::FAILURE
    }
}
