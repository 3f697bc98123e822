//! the window: its number, whether a look-up is present, and the part it hands back. the oracle of
//! the number is document 01's table, which the source has no part in.

use cases::Random;
use zakuro_core::memory::{Memory, Window};
use zakuro_core::services::dsp_voices::SampleMemory;

use crate::{port, same};

const LENGTHS: [usize; 9] = [0, 1, 2, 3, 4, 7, 8, 255, 4096];

pub fn compare(random: &mut Random, count: usize) -> Result<u64, String> {
    let mut compared = 0;
    for length in LENGTHS {
        let last = (1u64 << 32) - length as u64;
        for base in [0, 1, 0x2000_0000, 0x7FFF_FFFF, 0x8000_0000, last - 1, last] {
            let Ok(base) = u32::try_from(base) else { continue };
            let mut memory = lent(random, base, length);
            let end = base.wrapping_add(length as u32);
            for about in [base, end, 0, 0x8000_0000] {
                for address in [about.wrapping_sub(1), about, about.wrapping_add(1)] {
                    for many in [0, 1, 2, 8, length as u32, length as u32 + 1, 1 << 31, u32::MAX - 1, u32::MAX] {
                        for count in [many.wrapping_sub(1), many, end.wrapping_sub(address)] {
                            look_up(&mut memory, address, count)?;
                            compared += 1;
                        }
                    }
                }
            }
        }
    }
    for base in [0, 1, 0x7FFF_FFFF, 0x8000_0000, 0xFFFF_FFFE, 0xFFFF_FFFF, random.word() as u32] {
        let room = (1usize << 32) - base as usize;
        for length in [0, 1, room - 1, room, room + 1, 1 << 32, (1 << 32) + 1, 1 << 63, usize::MAX - 1, usize::MAX] {
            number(base, length)?;
            compared += 1;
        }
    }

    let mut memory = Memory::default();
    for i in 0..count {
        if i % 64 == 0 {
            let length = random.below(100);
            let base = random.below((1 << 32) - length) as u32;
            memory = lent(random, base, length);
        }
        let address = memory.phys.base.wrapping_add(random.below(120) as u32).wrapping_sub(10);
        look_up(&mut memory, address, random.below(120) as u32)?;
        let base = random.word() as u32;
        let room = (1usize << 32) - base as usize;
        number(base, room + random.below(5) - 2.min(room))?;
        compared += 2;
    }
    Ok(compared)
}

fn lent(random: &mut Random, base: u32, length: usize) -> Memory {
    Memory { phys: Window { base, bytes: random.bytes(length) }, ..Memory::default() }
}

fn look_up(memory: &mut Memory, address: u32, count: u32) -> Result<(), String> {
    let oracle = memory.physical(address, count).is_some();
    let Window { base, bytes } = &memory.phys;
    let port = port::present(bytes, *base, address, count);
    same!(oracle, port, "{count} bytes at {address:#010X}, the window has {} from {base:#010X}", bytes.len());
    // and as document 01 says it, byte by byte
    let inside = |at: u64| at.checked_sub(*base as u64).is_some_and(|at| at < bytes.len() as u64);
    let each = (0..count as u64).all(|i| inside(address as u64 + i));
    same!(each, port, "{count} bytes at {address:#010X}, the window has {} from {base:#010X}", bytes.len());
    // the part itself, which is empty where it is absent
    let part = port::physical(bytes, *base, address, count);
    let bytes = bytes.clone();
    let base = *base;
    let handed = memory.physical(address, count).map_or(Vec::new(), |part| part.to_vec());
    same!(handed, part, "{count} bytes at {address:#010X}, the window has {bytes:02X?} from {base:#010X}");
    Ok(())
}

fn number(base: u32, length: usize) -> Result<(), String> {
    let oracle = if base as u128 + length as u128 > 1 << 32 { 4 } else { 0 };
    same!(oracle, port::window_number(base, length), "base {base:#010X}, length {length:#X}");
    Ok(())
}
