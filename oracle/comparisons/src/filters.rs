//! the two filters: samples and what the filters keep, against the source's
//! `Filters::process`; that nothing is done where a filter that is on is out
//! of range.

use cases::configuring::{FILTERS, FRAME, record_of};
use cases::{EXTREMES, Random, floats};
use zakuro_core::services::dsp_voices::{
    FRAME_SAMPLES, Frame, ProbeBiquad, ProbeFilters, ProbeSimple, ProbeVoice, probe_filters,
};

use crate::{port, same};

/// one of count is a run of samples on both channels; each counts a step a
/// channel.
pub fn compare(random: &mut Random, count: usize) -> Result<u64, String> {
    const MARKS: [[u8; 2]; 4] = [[0, 0], [0, 1], [1, 0], [1, 1]];
    let mut steps = 0;
    for extreme in [-32_768, -1, 0, 1, 32_767, 32_768] {
        for sample in [-32_768, 0, 32_767] {
            for marks in MARKS {
                steps += run(marks, [extreme; 17], [[sample; 2]; FRAME_SAMPLES], 4)?;
            }
        }
    }
    for (bound, past) in [(-32_768, -32_769), (32_768, 32_769)] {
        for place in 0..17 {
            for marks in MARKS {
                let mut values = [bound; 17];
                values[place] = past;
                steps += run(marks, values, [[100; 2]; FRAME_SAMPLES], 4)?;
            }
        }
    }
    for _ in 0..count {
        let marks = [random.below(4) != 0, random.below(4) != 0].map(u8::from);
        let kind = random.below(4);
        let values = std::array::from_fn(|_| value(random, kind));
        let length = if random.below(8) == 0 { FRAME_SAMPLES } else { random.below(40) };
        let frame = std::array::from_fn(|_| [floats::sample(random), floats::sample(random)]);
        steps += run(marks, values, frame, length)?;
    }
    Ok(steps)
}

/// a coefficient or what a filter keeps, also 32,768.
fn value(random: &mut Random, kind: usize) -> i32 {
    match kind {
        0 => random.pick(&[-32_768, -32_767, 32_767, 32_768]),
        1 => random.below(65_537) as i32 - 32_768,
        2 => random.pick(&EXTREMES).into(),
        _ => {
            let kind = random.below(3);
            value(random, kind)
        }
    }
}

/// the default record with these filters and this frame.
fn record(marks: [u8; 2], values: &[i32], frame: &Frame) -> Vec<u8> {
    let mut record = record_of(&ProbeVoice::default());
    record[6..8].copy_from_slice(&marks);
    for (value, place) in values.iter().zip(record[FILTERS..].chunks_mut(4)) {
        place.copy_from_slice(&value.to_le_bytes());
    }
    for (sample, place) in frame.as_flattened().iter().zip(record[FRAME..].chunks_mut(2)) {
        place.copy_from_slice(&sample.to_le_bytes());
    }
    record
}

/// the first numbers are b0, a1 and y1 of the simple filter, the others b, a,
/// x and y of the biquad.
fn run(marks: [u8; 2], values: [i32; 17], frame: Frame, count: usize) -> Result<u64, String> {
    let (simple, biquad) = values.split_at(4);
    let strays = |mark: u8, values: &[i32]| mark != 0 && values.iter().any(|value| !(-32_768..=32_768).contains(value));
    let served = !strays(marks[0], simple) && !strays(marks[1], biquad);
    let (mut after, mut heard) = (values.to_vec(), frame);
    if served {
        let part = |at: usize| [biquad[at], biquad[at + 1]];
        let mut oracle = ProbeFilters {
            simple: (marks[0] != 0).then_some(ProbeSimple { b0: simple[0], a1: simple[1], y1: [simple[2], simple[3]] }),
            biquad: (marks[1] != 0).then_some(ProbeBiquad {
                b: [biquad[0], biquad[1], biquad[2]],
                a: part(3),
                x: [part(5), part(7)],
                y: [part(9), part(11)],
            }),
        };
        probe_filters(&mut oracle, &mut heard[..count]);
        // a filter that is off keeps what stands there
        if let Some(f) = oracle.simple {
            after[..4].copy_from_slice(&[f.b0, f.a1, f.y1[0], f.y1[1]]);
        }
        if let Some(f) = oracle.biquad {
            after[4..].copy_from_slice(&[&f.b[..], &f.a, f.x.as_flattened(), f.y.as_flattened()].concat());
        }
    }
    let mut port = record(marks, &values, &frame);
    let answer = port::filter(count, &mut port);
    let input = || format!("marks {marks:?}\nnumbers {values:?}\ncount {count}\nframe {frame:?}");
    same!(served, answer, "{}\nwhether the filters are in range", input());
    same!(record(marks, &after, &heard), port, "{}\nthe record", input());
    Ok(2 * count as u64)
}
