//! holds the port against the oracle.
//!   compare SEED COUNT [NAME..]         runs the comparisons, all or those named
//!   compare --quick                     the same, a few seconds of each
//!   compare decode                      decodes recorded inputs with the port
//!   compare measure WHAT source|port    runs WHAT on a fixed input, to be timed

mod busy;
mod calls;
mod casts;
mod config;
mod decode;
mod dsp32;
mod filters;
mod kinds;
mod layout;
mod listing;
mod measure;
mod mixer;
mod play;
mod port;
mod region;
mod run_calls;
mod served;
mod stems;
mod stream;
mod voice;
mod window;

use std::env;
use std::process::ExitCode;
use std::str::FromStr;

use cases::Random;

/// takes how many random inputs to add to the fixed ones. gives how many
/// calls of the port were compared in all, or the first that differs.
type Comparison = fn(&mut Random, usize) -> Result<u64, String>;

/// each with how many random inputs are few.
const COMPARISONS: [(&str, Comparison, usize); 14] = [
    ("region", region::compare, 100_000),
    ("dsp32", dsp32::compare, 100_000),
    ("window", window::compare, 100_000),
    ("layout", layout::compare, 100_000),
    ("decode", decode::compare, 100_000),
    ("listing", listing::compare, 1_000),
    ("casts", casts::compare, 1_000_000),
    ("mixer", mixer::compare, 20_000),
    ("filters", filters::compare, 20_000),
    ("config", config::compare, 20_000),
    ("play", play::compare, 2_000),
    ("voice", voice::compare, 2_000),
    ("calls", calls::compare, 100),
    ("stems", stems::compare, 6),
];

/// the oracle's answer and the port's are the same, or the input is told.
#[macro_export]
macro_rules! same {
    ($oracle:expr, $port:expr, $($input:tt)+) => {{
        let (oracle, port) = (&$oracle, &$port);
        if oracle != port {
            return Err(format!("{}\noracle: {oracle:?}\nport:   {port:?}", format_args!($($input)+)));
        }
    }};
}

fn main() -> ExitCode {
    let words: Vec<String> = env::args().skip(1).collect();
    let words: Vec<&str> = words.iter().map(String::as_str).collect();
    let run = match words[..] {
        ["decode"] => stream::decode(),
        ["measure", what, side] => measure::run(what, side),
        ["--quick"] => compare(1, None, &[]),
        [seed, count, ref names @ ..] => number(seed).and_then(|seed| compare(seed, Some(number(count)?), names)),
        _ => Err("compare SEED COUNT [NAME..]".into()),
    };
    match run {
        Ok(()) => ExitCode::SUCCESS,
        Err(message) => {
            eprintln!("{message}");
            ExitCode::FAILURE
        }
    }
}

fn number<T: FromStr>(word: &str) -> Result<T, String> {
    word.parse().map_err(|_| format!("not a number: {word}"))
}

fn compare(seed: u64, count: Option<usize>, names: &[&str]) -> Result<(), String> {
    for name in names {
        if COMPARISONS.iter().all(|(known, ..)| known != name) {
            return Err(format!("no comparison is named {name}"));
        }
    }
    for (name, compare, few) in COMPARISONS {
        if names.is_empty() || names.contains(&name) {
            match compare(&mut Random::new(seed), count.unwrap_or(few)) {
                Ok(calls) => println!("{name}: {calls} calls compared, no difference"),
                Err(input) => return Err(format!("{name}: DIFFERENT at\n{input}")),
            }
        }
    }
    Ok(())
}
