//! writes what the oracle answers to fixed inputs, for programs that replay
//! it without Rust: `record REPOSITORY` writes stdin and stdout of the crates
//! replay, run_voice and run_calls. every number is little-endian.
//! document 01's cases by hand are among the inputs, and an answer that is
//! not document 01's stops the recording.

mod adpcm;
mod calls;
mod listing;
mod memory;
mod mixer;
mod numbers;
mod playing;
mod serving;
mod voices;

use std::path::Path;
use std::{env, fs, io};

use cases::Random;

#[derive(Default)]
struct Replay {
    stdin: Vec<u8>,
    stdout: Vec<u8>,
}

/// kinds of a job, as the crate jobs has them.
const NUMBER: u32 = 0;
const DECODE: u32 = 1;
const LISTING: u32 = 2;
const MIXER: u32 = 3;

impl Replay {
    /// a job of the program replay.
    fn job(&mut self, kind: u32, part: &[u8], answer: &[u8]) {
        self.stdin.extend(kind.to_le_bytes());
        self.stdin.extend((part.len() as u32).to_le_bytes());
        self.stdin.extend(part);
        self.stdout.extend(answer);
    }

    /// a call of a function on numbers alone, by its kind in the crate
    /// number_jobs.
    fn number(&mut self, kind: u32, operands: [u64; 3], answer: u64) {
        let words = operands.iter().flat_map(|word| word.to_le_bytes());
        let part: Vec<u8> = kind.to_le_bytes().into_iter().chain(words).collect();
        self.job(NUMBER, &part, &answer.to_le_bytes());
    }

    fn write(&self, folder: &Path) -> io::Result<()> {
        fs::create_dir_all(folder)?;
        fs::write(folder.join("stdin"), &self.stdin)?;
        fs::write(folder.join("stdout"), &self.stdout)
    }
}

fn main() -> io::Result<()> {
    let repository = env::args().nth(1).expect("record REPOSITORY");
    let crates = Path::new(&repository).join("crates");
    let mut replay = Replay::default();
    memory::memory(&mut Random::new(1), &mut replay);
    adpcm::adpcm(&mut Random::new(2), &mut replay);
    numbers::numbers(&mut Random::new(3), &mut replay);
    mixer::mixer(&mut Random::new(4), &mut replay);
    listing::listing(&mut Random::new(7), &mut replay);
    replay.write(&crates.join("replay"))?;
    voices::voices().write(&crates.join("run_voice"))?;
    calls::calls().write(&crates.join("run_calls"))
}
