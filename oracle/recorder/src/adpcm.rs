//! ADPCM decodes.

use cases::{Decode, Random};
use zakuro_core::services::dsp_voices::probe_decode;

use crate::{DECODE, Replay};

/// jobs as the crate jobs has them in decode.rs.
pub fn adpcm(random: &mut Random, replay: &mut Replay) {
    for (case, samples) in Decode::by_hand() {
        assert_eq!(decoded(&case).0, samples, "{case:?}");
    }
    let mut cases = Decode::fixed(random);
    for _ in 0..200 {
        let count = random.below(100);
        cases.push(Decode::random(random, count));
    }
    // one with 65,535 samples is among the listings
    cases.push(Decode::random(random, 10_000));

    for case in cases {
        let Decode { coefficients, history, count, ref data } = case;
        let mut part = halves(coefficients.iter().chain(&history));
        part.extend((count as u16).to_le_bytes());
        part.extend(data);
        let (samples, history) = decoded(&case);
        replay.job(DECODE, &part, &halves(samples.iter().chain(&history)));
    }
}

fn halves<'a>(values: impl Iterator<Item = &'a i16>) -> Vec<u8> {
    values.flat_map(|value| value.to_le_bytes()).collect()
}

/// the oracle's samples and history.
fn decoded(case: &Decode) -> (Vec<i16>, [i16; 2]) {
    let (mut history, mut samples) = (case.history, Vec::new());
    probe_decode(&case.data, case.count, &case.coefficients, &mut history, &mut samples);
    (samples, history)
}
