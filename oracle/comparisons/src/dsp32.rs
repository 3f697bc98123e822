//! reading and writing the DSP's 32-bit values, with the bytes around them.

use cases::{Random, WORDS};
use zakuro_core::memory::Memory;
use zakuro_core::services::dsp_voices::{probe_read_dsp32, probe_write_dsp32};

use crate::{port, same};

pub fn compare(random: &mut Random, count: usize) -> Result<u64, String> {
    for value in WORDS {
        for at in 0..=12 {
            one(random, 16, at, value)?;
        }
    }
    for _ in 0..count {
        let length = 4 + random.below(29);
        let at = random.below(length - 3);
        let value = random.word() as u32;
        one(random, length, at, value)?;
    }
    Ok(3 * (WORDS.len() * 13 + count) as u64)
}

/// reads what stands there, writes the value and reads it back.
fn one(random: &mut Random, length: usize, at: usize, value: u32) -> Result<(), String> {
    let before = random.bytes(length);
    let mut bytes = before.clone();
    let mut memory = Memory { regions: [before.clone(), Vec::new()], ..Memory::default() };
    let address = at as u32;

    let oracle = probe_read_dsp32(&mut memory, address);
    same!(oracle, port::read_dsp32(&bytes, at), "reading at {at} of {before:02X?}");
    probe_write_dsp32(&mut memory, address, value);
    port::write_dsp32(&mut bytes, at, value);
    same!(memory.regions[0], bytes, "writing {value:#010X} at {at} of {before:02X?}");
    same!(value, port::read_dsp32(&bytes, at), "reading {value:#010X} back at {at} of {bytes:02X?}");
    Ok(())
}
