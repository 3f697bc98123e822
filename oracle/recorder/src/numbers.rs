//! casts, gains, rates, tests of numbers and what mixing does with them.

use cases::floats::{bits, double, doubles, gain, sample, single, singles, whole, wholes};
use cases::{Random, SAMPLES};
use zakuro_core::memory::Memory;
use zakuro_core::services::dsp_voices::{FRAME_SAMPLES, probe_add, probe_fade, probe_gain_and_rate, probe_lerp};

use crate::Replay;

/// kinds of the crate number_jobs.
const SINGLE_TO_I32: u32 = 4;
const DOUBLE_TO_I16: u32 = 5;
const DOUBLE_TO_U32: u32 = 6;
const I32_TO_SINGLE: u32 = 7;
const GAIN: u32 = 8;
const RATE: u32 = 9;
const FINITE: u32 = 10;
const IS_RATE: u32 = 11;
const IS_FRACTION: u32 = 12;
const PRODUCT: u32 = 13;
const FADE: u32 = 14;
const BETWEEN: u32 = 15;

pub fn numbers(random: &mut Random, replay: &mut Replay) {
    floats(random, replay);
    products(random, replay);
    fades(random, replay);
    between(random, replay);
}

fn floats(random: &mut Random, replay: &mut Replay) {
    let mut memory = Memory { regions: [vec![0; 192], Vec::new()], ..Memory::default() };
    for x in singles().into_iter().chain((0..40).map(|_| single(random))) {
        let operands = [x.to_bits().into(), 0, 0];
        let (gain, rate) = probe_gain_and_rate(&mut memory, x.to_bits());
        replay.number(SINGLE_TO_I32, operands, (x as i32 as u32).into());
        replay.number(GAIN, operands, gain.to_bits().into());
        replay.number(RATE, operands, rate.to_bits());
        replay.number(FINITE, operands, x.is_finite().into());
    }
    for x in doubles().into_iter().chain((0..40).map(|_| double(random))) {
        let operands = [x.to_bits(), 0, 0];
        replay.number(DOUBLE_TO_I16, operands, (x as i16 as u16).into());
        replay.number(DOUBLE_TO_U32, operands, (x as u32).into());
        replay.number(IS_RATE, operands, (x > 0.0 && x.is_finite()).into());
        replay.number(IS_FRACTION, operands, (x >= 0.0).into());
    }
    assert_eq!(16_777_217 as f32, 16_777_216.0);
    for n in [16_777_217].into_iter().chain(wholes()).chain((0..40).map(|_| whole(random))) {
        replay.number(I32_TO_SINGLE, [n as u32 as u64, 0, 0], bits(n as f32).into());
    }
}

fn products(random: &mut Random, replay: &mut Replay) {
    let mut products = Vec::new();
    for gain in [0.0, -0.0, 1e-40, 0.5, 1.0, -1.0, 16384.0, 16384.002, 65536.0, 65536.01, -3e38, 3e38, f32::INFINITY] {
        products.extend(SAMPLES.map(|sample| (gain, sample)));
    }
    products.extend((0..40).map(|_| (gain(random), sample(random))));
    for (gain, sample) in products {
        let added = probe_add(&[sample; FRAME_SAMPLES], gain)[0];
        replay.number(PRODUCT, [gain.to_bits().into(), (sample as u16).into(), 0], (added as u32).into());
    }
}

fn fades(random: &mut Random, replay: &mut Replay) {
    let mut fade = |from: f32, to: f32, i: usize, sample: i16| {
        let added = probe_fade(&[sample; FRAME_SAMPLES], from, to)[i];
        let c = (i as u64) << 16 | sample as u16 as u64;
        replay.number(FADE, [from.to_bits().into(), to.to_bits().into(), c], (added as u32).into());
        added
    };
    for i in (0..FRAME_SAMPLES).step_by(3) {
        assert_eq!(fade(-3e38, 3e38, i, 0), 0);
    }
    assert_eq!(fade(-3e38, 3e38, FRAME_SAMPLES - 1, 1), 2_147_483_647);
    for (from, to) in [
        (-3e38, 3e38),
        (0.0, 1.0),
        (1.0, 0.0),
        (-0.0, 0.0),
        (1.0, 1.0),
        (0.3, 0.7),
        (1e-40, -0.9),
        (16384.0, -16384.0),
        (16384.002, -16384.0),
        (f32::INFINITY, 0.0),
        (0.0, f32::INFINITY),
        (f32::INFINITY, f32::NEG_INFINITY),
    ] {
        for i in [0, 1, 80, 158, 159] {
            for sample in [0, 1, -32768] {
                fade(from, to, i, sample);
            }
        }
    }
    for _ in 0..40 {
        fade(gain(random), gain(random), random.below(FRAME_SAMPLES), sample(random));
    }
}

fn between(random: &mut Random, replay: &mut Replay) {
    let mut between = |a: i16, b: i16, fraction: f64| {
        let [sample, _] = probe_lerp([a; 2], [b; 2], fraction);
        let operands = [(a as u16).into(), (b as u16).into(), fraction.to_bits()];
        replay.number(BETWEEN, operands, (sample as u16).into());
        sample
    };
    assert_eq!(between(0, -3, 0.5), -1);
    assert_eq!(between(0, 100, 1.5), 150);
    for fraction in [0.0, -0.0, 1e-310, 0.5, 1.0 - f64::EPSILON, 1.0, 1.5, 32768.0, 3e38, f64::INFINITY, f64::NAN] {
        for (a, b) in [(0, -3), (0, 100), (-1, 0), (5, 5), (32766, 32767), (-32768, 32767), (32767, -32768)] {
            between(a, b, fraction);
        }
    }
    for i in 0..60 {
        between(sample(random), sample(random), i as f64 / 59.0);
    }
}
