//! inputs of the decode listing at the edges of what is complete, and a
//! listing made of the source's decoder and Rust's formatting.

use std::array::from_fn;
use std::fmt::Write;

use zakuro_core::services::dsp_voices::probe_decode;

use crate::{Decode, Random, bytes_of};

pub const HEADER: usize = 38;
/// one byte more than the longest complete input.
pub const INPUT_ROOM: usize = HEADER + 65_535usize.div_ceil(14) * 8 + 1;
/// the longest listing.
pub const OUTPUT_ROOM: usize = (65_535 + 3) * 17;

/// what the program prints for an input.
pub fn listed(input: &[u8]) -> Vec<u8> {
    tables(input).unwrap_or_else(|| format!("{:>8}\n", 9)).into_bytes()
}

/// none where bytes are missing or left over.
fn tables(input: &[u8]) -> Option<String> {
    let (header, frames) = input.split_at_checked(HEADER)?;
    let mut halves = header.chunks(2).map(|half| i16::from_le_bytes([half[0], half[1]]));
    let mut half = || halves.next().unwrap();
    let coefficients = from_fn(|_| half());
    let mut history = from_fn(|_| half());
    let count = half() as u16 as usize;
    if frames.len() != bytes_of(count) {
        return None;
    }
    let mut samples = Vec::new();
    probe_decode(frames, count, &coefficients, &mut history, &mut samples);
    let mut text = String::new();
    writeln!(text, "{:>8}{:>8}", "sample", "value").unwrap();
    for (index, sample) in samples.iter().enumerate() {
        writeln!(text, "{index:>8}{sample:>8}").unwrap();
    }
    writeln!(text, "{:>8}{:>8}", "yn1", "yn2").unwrap();
    writeln!(text, "{:>8}{:>8}", history[0], history[1]).unwrap();
    Some(text)
}

/// a count and how long an input with it is: complete, some bytes short, some
/// over, ended in the header, and longer than the program reads.
pub fn edges() -> Vec<(usize, usize)> {
    let mut edges = vec![(3, 0), (3, 1), (0, 36), (0, 37), (3, 37), (3, 38)];
    for count in [0, 1, 3, 13, 14, 15, 65_521, 65_522, 65_534, 65_535] {
        let whole = HEADER + bytes_of(count);
        edges.extend([whole - 1, whole, whole + 1, whole + 8].map(|length| (count, length)));
    }
    edges.extend([INPUT_ROOM, INPUT_ROOM + 1, 65_535, 65_536, 100_000].map(|length| (0, length)));
    edges.extend([46, 65_535, 65_536, 100_000].map(|length| (65_535, length)));
    edges
}

/// a header with random values and a count.
pub fn header(random: &mut Random, count: usize) -> Vec<u8> {
    let Decode { coefficients, history, .. } = Decode::random(random, 0);
    let values = coefficients.iter().chain(&history).flat_map(|value| value.to_le_bytes());
    values.chain((count as u16).to_le_bytes()).collect()
}
