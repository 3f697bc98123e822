//! region choice and dsp32.

use cases::{CHOICES, COUNTERS, Random, WORDS};
use zakuro_core::memory::Memory;
use zakuro_core::services::dsp_voices::{Layout, REGION_STRIDE, current_region, probe_read_dsp32, probe_write_dsp32};
use zakuro_cpu::Bus;

use crate::Replay;

/// kinds of the crate number_jobs.
const REGION: u32 = 0;
const READ_DSP32: u32 = 1;
const WRITE_DSP32: u32 = 2;
const WINDOW: u32 = 3;

pub fn memory(random: &mut Random, replay: &mut Replay) {
    let mut memory = Memory { regions: [vec![0; 4], vec![0; 4]], ..Memory::default() };
    let layout = Layout { configurations: 0, statuses: 0, coefficients: 0, frame_counter: 0 };
    let mut region = |first: u16, second: u16| {
        memory.write16(0, first);
        memory.write16(REGION_STRIDE, second);
        let chosen = current_region(&mut memory, layout);
        replay.number(REGION, [first.into(), second.into(), 0], chosen.into());
        chosen
    };
    for (first, second, chosen) in CHOICES {
        assert_eq!(region(first, second), chosen, "counters {first:#06X}, {second:#06X}");
    }
    for first in COUNTERS {
        for second in COUNTERS {
            region(first, second);
        }
    }
    for _ in 0..150 {
        region(random.word() as u16, random.word() as u16);
    }

    let by_hand = [0x01, 0x00, 0x45, 0x23];
    memory.write_bytes(0, &by_hand);
    assert_eq!(probe_read_dsp32(&mut memory, 0), 74565);
    let words = [u32::from_le_bytes(by_hand)].into_iter().chain(WORDS);
    for word in words.chain((0..150).map(|_| random.word() as u32)) {
        memory.write32(0, word);
        replay.number(READ_DSP32, [word.into(), 0, 0], probe_read_dsp32(&mut memory, 0).into());
        probe_write_dsp32(&mut memory, 0, word);
        replay.number(WRITE_DSP32, [word.into(), 0, 0], memory.read32(0).into());
    }

    // number 4 by document 01's table
    for base in [0, 1, 0x7FFF_FFFF, 0x8000_0000, 0xFFFF_FFFE, 0xFFFF_FFFF] {
        let room = (1u64 << 32) - base;
        for length in [0, 1, room - 1, room, room + 1, 1 << 32, u64::MAX] {
            replay.number(WINDOW, [base, length, 0], if length > room { 4 } else { 0 });
        }
    }
}
