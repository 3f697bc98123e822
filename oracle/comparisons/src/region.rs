//! the choice of a region, on frame counters anywhere in the regions.

use cases::{COUNTERS, Random};
use zakuro_core::memory::Memory;
use zakuro_core::services::dsp_voices::{Layout, REGION_STRIDE, current_region};
use zakuro_cpu::Bus;

use crate::{port, same};

pub fn compare(random: &mut Random, count: usize) -> Result<u64, String> {
    const LENGTH: usize = 64;
    let mut memory = Memory { regions: [random.bytes(LENGTH), random.bytes(LENGTH)], ..Memory::default() };
    let mut one = |frame_counter: u32, first: u16, second: u16| {
        memory.write16(frame_counter, first);
        memory.write16(frame_counter + REGION_STRIDE, second);
        let layout = Layout { configurations: 0, statuses: 0, coefficients: 0, frame_counter };
        let oracle = current_region(&mut memory, layout);
        same!(oracle, port::current_region(first, second), "counters {first:#06X}, {second:#06X}");
        Ok(())
    };
    for first in COUNTERS {
        for second in COUNTERS {
            one(0, first, second)?;
        }
    }
    for _ in 0..count {
        let first = random.word() as u16;
        // half of the pairs are close to each other
        let second = if random.below(2) == 0 {
            random.word() as u16
        } else {
            first.wrapping_add(random.below(5) as u16).wrapping_sub(2)
        };
        one(random.below(LENGTH - 1) as u32, first, second)?;
    }
    Ok((COUNTERS.len() * COUNTERS.len() + count) as u64)
}
