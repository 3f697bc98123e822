//! casts, roundings and tests of numbers, beside Rust's own and what the
//! source's configuration makes of bits; interpolation and products, beside
//! the source's lerp, add and fade.

use cases::floats::{double, doubles, gain, sample, single, singles, whole, wholes};
use cases::{Random, SAMPLES};
use zakuro_core::memory::Memory;
use zakuro_core::services::dsp_voices::{FRAME_SAMPLES, probe_add, probe_fade, probe_gain_and_rate, probe_lerp};

use crate::{port, same};

/// one of count is a single, a double, a whole number, an interpolation and
/// a product, with a frame of products and fades for every 160.
pub fn compare(random: &mut Random, count: usize) -> Result<u64, String> {
    let memory = Memory { regions: [vec![0; 192], Vec::new()], ..Memory::default() };
    let mut casts = Casts { memory, calls: 0 };

    // document 01's cases by hand
    for value in [0, 1] {
        casts.frame(&[value; FRAME_SAMPLES], -3e38, 3e38)?;
    }
    casts.between([0; 2], [-3, 100], 0.5)?;
    casts.between([0; 2], [-3, 100], 1.5)?;
    casts.whole(16_777_217)?;

    let mut samples = || std::array::from_fn(|_| sample(random));
    for x in singles() {
        casts.single(x)?;
        for sample in SAMPLES {
            casts.product(x, sample)?;
        }
        for to in singles() {
            casts.frame(&samples(), x, to)?;
        }
    }
    for x in doubles() {
        casts.double(x)?;
        for a in SAMPLES {
            for b in SAMPLES {
                casts.between([a, b], [b, a], x)?;
            }
        }
    }
    for n in wholes() {
        casts.whole(n)?;
    }

    for i in 0..count {
        if i % FRAME_SAMPLES == 0 {
            let samples = std::array::from_fn(|_| sample(random));
            casts.frame(&samples, gain(random), gain(random))?;
        }
        casts.single(single(random))?;
        casts.double(double(random))?;
        casts.whole(whole(random))?;
        casts.product(gain(random), sample(random))?;
        let [x0, x1] = std::array::from_fn(|_| std::array::from_fn(|_| sample(random)));
        // half of the fractions below 1, as they mostly are
        let word = random.word();
        let below_one = (word >> 11) as f64 / (1u64 << 53) as f64;
        casts.between(x0, x1, if word & 1 == 0 { below_one } else { double(random) })?;
    }
    Ok(casts.calls)
}

struct Casts {
    /// room for a configuration.
    memory: Memory,
    calls: u64,
}

impl Casts {
    fn single(&mut self, x: f32) -> Result<(), String> {
        let bits = x.to_bits();
        let (gain, rate) = probe_gain_and_rate(&mut self.memory, bits);
        same!(x as i32, port::cast_i32(x), "{x:e}, bits {bits:#010X}, to i32");
        same!(x.is_finite(), port::is_finite(x), "{x:e}, bits {bits:#010X}, finite");
        same!(gain.to_bits(), port::gain_of(bits).to_bits(), "bits {bits:#010X} as a gain, its bits");
        same!(rate.to_bits(), port::rate_of(bits).to_bits(), "bits {bits:#010X} as a rate, its bits");
        self.calls += 4;
        Ok(())
    }

    fn double(&mut self, x: f64) -> Result<(), String> {
        let bits = x.to_bits();
        same!(x as i16, port::cast_i16(x), "{x:e}, bits {bits:#018X}, to i16");
        same!(x as u32, port::cast_u32(x), "{x:e}, bits {bits:#018X}, to u32");
        same!(x > 0.0 && x.is_finite(), port::is_rate(x), "{x:e}, bits {bits:#018X}, a rate");
        same!(x >= 0.0, port::is_fraction(x), "{x:e}, bits {bits:#018X}, a fraction");
        self.calls += 4;
        Ok(())
    }

    fn whole(&mut self, n: i32) -> Result<(), String> {
        same!((n as f32).to_bits(), port::single_of_i32(n).to_bits(), "{n} to f32, its bits");
        self.calls += 1;
        Ok(())
    }

    fn product(&mut self, gain: f32, sample: i16) -> Result<(), String> {
        let oracle = (gain * sample as f32) as i32;
        same!(oracle, port::at_gain(gain, sample), "gain {gain:e}, bits {:#010X}, sample {sample}", gain.to_bits());
        self.calls += 1;
        Ok(())
    }

    fn between(&mut self, x0: [i16; 2], x1: [i16; 2], fraction: f64) -> Result<(), String> {
        let oracle = probe_lerp(x0, x1, fraction);
        let port = std::array::from_fn(|channel| port::interpolate(x0[channel], x1[channel], fraction));
        same!(oracle, port, "{x0:?} to {x1:?} at {fraction:e}, bits {:#018X}", fraction.to_bits());
        self.calls += 2;
        Ok(())
    }

    fn frame(&mut self, samples: &[i16; FRAME_SAMPLES], from: f32, to: f32) -> Result<(), String> {
        let bits = [from, to].map(f32::to_bits);
        let (added, faded) = (probe_add(samples, to), probe_fade(samples, from, to));
        for (i, &sample) in samples.iter().enumerate() {
            same!(added[i], port::at_gain(to, sample), "gain {to:e}, bits {:#010X}, sample {sample}", bits[1]);
            same!(
                faded[i],
                port::fading(from, to, i, sample),
                "{from:e} to {to:e}, bits {bits:08X?}, at {i}, sample {sample}"
            );
        }
        self.calls += 2 * FRAME_SAMPLES as u64;
        Ok(())
    }
}
