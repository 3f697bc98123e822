//! inputs for the oracle and the port, the same from the same seed.

mod adpcm;
pub mod calling;
pub mod configuring;
pub mod floats;
pub mod layout;
pub mod listing;
mod mixing;
pub mod playing;
mod random;
pub mod recording;
pub mod serving;

pub use adpcm::{Decode, EXTREMES, bytes_of};
pub use mixing::{Mixed, Mixing, VALUES};
pub use random::Random;

/// frame counters about which the choice of a region turns.
pub const COUNTERS: [u16; 11] = [0, 1, 2, 0x7FFE, 0x7FFF, 0x8000, 0x8001, 0xFFFC, 0xFFFD, 0xFFFE, 0xFFFF];

/// 32-bit values about which the halves of a dsp32 turn.
pub const WORDS: [u32; 12] =
    [0, 1, 0xFF, 0xFFFF, 0x1_0000, 0x1_FFFF, 0x7FFF_FFFF, 0x8000_0000, 0xFFFF_0000, 0xFFFF_FFFE, 0xFFFF_FFFF, 74565];

/// samples about which products and interpolation turn.
pub const SAMPLES: [i16; 9] = [-32768, -32767, -3, -1, 0, 1, 100, 32766, 32767];

/// frame counters, and the region that document 01 has them choose.
pub const CHOICES: [(u16, u16, u32); 6] =
    [(1, 1, 1), (2, 1, 0), (0xFFFF, 0xFFFE, 0), (0xFFFF, 0, 1), (0, 0xFFFF, 0), (0xFFFE, 0xFFFF, 1)];

/// a sum in which every byte and its place count.
pub fn sum(bytes: &[u8]) -> u32 {
    bytes.iter().fold(0, |sum: u32, &byte| sum.wrapping_mul(31).wrapping_add(byte.into()))
}
