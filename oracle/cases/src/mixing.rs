use std::fmt;

use zakuro_core::memory::Memory;
use zakuro_core::services::dsp_mixer::{Layout, Mixer};
use zakuro_core::services::dsp_voices::{FRAME_SAMPLES, QuadFrame, REGION_STRIDE};
use zakuro_cpu::Bus;

use crate::{Random, floats, layout};

/// bits of the configuration's dirty word that mean something.
const FLAGS: [u32; 6] = [1 << 8, 1 << 9, 1 << 16, 1 << 24, 1 << 25, 1 << 26];

/// how many values the mixes have.
pub const VALUES: usize = 1920;

/// what a frame of the mixer is given. read is 0 or 1 where it is served.
#[derive(Debug, Clone)]
pub struct Mixing {
    pub volume: [f32; 3],
    /// aux 0, aux 1, mono.
    pub switches: [bool; 3],
    pub read: u32,
    /// in the order of layout::SIZES.
    pub offsets: [u32; 7],
    pub memory: Memory,
    pub mixes: [QuadFrame; 3],
}

/// what it leaves.
#[derive(Debug, Clone)]
pub struct Mixed {
    pub volume: [f32; 3],
    /// 1 for on.
    pub switches: [u8; 3],
    /// left and right of each sample in turn.
    pub frame: [i16; 2 * FRAME_SAMPLES],
    pub regions: [Vec<u8>; 2],
}

impl Mixing {
    /// all off and silent, over two regions with places at the offsets.
    pub fn new(offsets: [u32; 7], regions: [Vec<u8>; 2], read: u32) -> Mixing {
        let memory = Memory { regions, ..Memory::default() };
        Mixing { volume: [0.0; 3], switches: [false; 3], read, offsets, memory, mixes: [[[0; FRAME_SAMPLES]; 4]; 3] }
    }

    /// the same with the places packed, all bytes alike.
    pub fn packed(byte: u8, read: u32) -> Mixing {
        let (offsets, end) = layout::packed(layout::ORDER, [0; 7]);
        Mixing::new(offsets, [0, 1].map(|_| vec![byte; end as usize]), read)
    }

    /// document 01's traps: two mixes in turn, and what the left speaker
    /// plays.
    pub fn by_hand() -> [(Mixing, i16); 2] {
        [(0, 40_000, -10_000, 22_767), (1, -20_000, 60_000, 12_767)].map(|(mix, first, second, heard)| {
            let mut case = Mixing::packed(0xA5, 0);
            case.configure(0, [0; 3], [0; 3]);
            for (mix, value) in [(mix, first), (mix + 1, second)] {
                case.volume[mix] = 1.0;
                case.mixes[mix][0] = [value; FRAME_SAMPLES];
            }
            (case, heard)
        })
    }

    /// random bytes, the places packed or, in one of 16, anywhere.
    pub fn random(random: &mut Random) -> Mixing {
        let (offsets, length) = if random.below(16) == 0 {
            let (offsets, end) = layout::random(random);
            (offsets, random.pick(&[end as usize, end as usize + 1, layout::LONGEST]))
        } else {
            let (offsets, end) = layout::packed(layout::ORDER, [0; 7]);
            (offsets, end as usize)
        };
        let regions = [random.bytes(length), random.bytes(length)];
        let mut case = Mixing::new(offsets, regions, random.below(2) as u32);
        case.vary(random);
        case
    }

    /// makes state, configuration, mixes and the intermediate samples of the
    /// region read anew.
    pub fn vary(&mut self, random: &mut Random) {
        self.volume = std::array::from_fn(|_| floats::gain(random));
        self.switches = std::array::from_fn(|_| random.below(2) == 0);

        let word = random.word() as u32;
        let flags = match random.below(8) {
            0 => 0,
            1 | 2 => random.pick(&FLAGS),
            3 => word & !FLAGS.iter().sum::<u32>(),
            4 => word,
            _ => word & FLAGS.iter().sum::<u32>(),
        };
        let volumes = std::array::from_fn(|_| floats::gain(random).to_bits());
        let halves = std::array::from_fn(|_| random.pick(&[0, 0, 1, 2, 0x0100, word as u16]));
        self.configure(flags, volumes, halves);

        let kind = random.below(6);
        for value in self.mixes.as_flattened_mut().as_flattened_mut() {
            *value = level(random, kind);
        }
        let kind = random.below(6);
        for word in self.intermediate().as_chunks_mut().0 {
            *word = level(random, kind).to_le_bytes();
        }
    }

    /// writes the configuration of the region read: the dirty word, the
    /// volumes' bits, aux 0, aux 1 and the output format.
    pub fn configure(&mut self, flags: u32, volumes: [u32; 3], [aux0, aux1, output]: [u16; 3]) {
        let base = self.offsets[4] + self.read * REGION_STRIDE;
        for (at, word) in [(0, flags), (4, volumes[0]), (8, volumes[1]), (12, volumes[2])] {
            self.memory.write32(base + at, word);
        }
        for (at, half) in [(0x16, output), (0x28, aux0), (0x2A, aux1)] {
            self.memory.write16(base + at, half);
        }
    }

    /// the intermediate samples of the region read.
    pub fn intermediate(&mut self) -> &mut [u8] {
        let (at, size) = (self.offsets[6] as usize, layout::SIZES[6] as usize);
        &mut self.memory.regions[self.read as usize][at..at + size]
    }

    pub fn layout(&self) -> Layout {
        let [.., configuration, final_samples, intermediate_samples] = self.offsets;
        Layout { configuration, final_samples, intermediate_samples }
    }

    pub fn mixer(&self) -> Mixer {
        let [aux0, aux1, mono] = self.switches;
        Mixer::probe_new(self.volume, [aux0, aux1], mono)
    }

    /// the lowest number that applies by document 01's table, or 0, with so
    /// many values for mixes.
    pub fn number(&self, values: usize) -> u8 {
        let [first, second] = &self.memory.regions;
        match layout::number(first.len(), second.len(), &self.offsets) {
            0 if values != VALUES => 6,
            0 if self.read > 1 => 8,
            number => number,
        }
    }

    /// what the oracle makes of it.
    pub fn tick(&self) -> Mixed {
        let (mut mixer, mut memory) = (self.mixer(), self.memory.clone());
        let frame = mixer.tick(&mut memory, self.layout(), self.read, self.mixes);
        let (volume, [aux0, aux1], mono) = mixer.probe_state();
        let frame = frame.as_flattened().try_into().unwrap();
        Mixed { volume, switches: [aux0, aux1, mono].map(u8::from), frame, regions: memory.regions }
    }

    /// what it leaves where it is refused.
    pub fn refused(&self) -> Mixed {
        let Mixing { volume, switches, memory, .. } = self;
        Mixed {
            volume: *volume,
            switches: switches.map(u8::from),
            frame: [0; 2 * FRAME_SAMPLES],
            regions: memory.regions.clone(),
        }
    }
}

/// a value of a mix: small, about 2^15, 2^24 or the ends of 32 bits, any, or
/// each of these in turn.
fn level(random: &mut Random, kind: usize) -> i32 {
    let word = random.word();
    let near = (word >> 32 & 7) as i32 - 4;
    let sign = if word >> 63 == 0 { 1 } else { -1 };
    match kind {
        0 => (word as i16 >> (word >> 32 & 15)) as i32,
        1 => sign * 32_768 + near,
        2 => sign * 16_777_216 + near,
        3 => i32::MIN.wrapping_add(near),
        4 => word as i32,
        _ => level(random, (word >> 40) as usize % 5),
    }
}

/// all of it.
impl fmt::Display for Mixing {
    fn fmt(&self, f: &mut fmt::Formatter) -> fmt::Result {
        let Mixing { volume, switches, read, offsets, memory, mixes } = self;
        writeln!(f, "volumes {volume:?}, bits {:08X?}", volume.map(f32::to_bits))?;
        writeln!(f, "aux 0, aux 1, mono {switches:?}\nread {read}\noffsets {offsets:?}")?;
        for (region, bytes) in memory.regions.iter().enumerate() {
            writeln!(f, "region {region}, {} bytes {bytes:02X?}", bytes.len())?;
        }
        for (mix, channels) in mixes.iter().enumerate() {
            for (channel, values) in channels.iter().enumerate() {
                writeln!(f, "mix {mix}, channel {channel} {values:?}")?;
            }
        }
        Ok(())
    }
}
