//! calls of the mixer, served and refused.

use cases::floats::bits;
use cases::layout::{LONGEST, ORDER, SIZES, packed};
use cases::{Mixing, Random, VALUES, sum};

use crate::{MIXER, Replay};

/// how many words the intermediate samples and the mixes repeat.
const WORDS: usize = 61;

/// jobs as the crate mixer_jobs has them.
pub fn mixer(random: &mut Random, replay: &mut Replay) {
    for (call, heard) in by_hand() {
        assert_eq!(call.record(replay), (0, heard));
    }
    for call in served(random) {
        assert_eq!(call.record(replay).0, 0);
    }
    for (call, number) in boundaries(random) {
        assert_eq!(call.record(replay).0, number, "{:?}", call.lengths);
    }
}

/// what a job's part says.
struct Call {
    volume: [f32; 3],
    switches: [bool; 3],
    read: u32,
    offsets: [u32; 7],
    lengths: [usize; 2],
    values: usize,
    fills: [u8; 2],
    configuration: Vec<u8>,
    intermediate: Vec<u8>,
    mixes: [i32; WORDS],
}

impl Call {
    /// state, places and region of a frame, its configuration, and the first
    /// words of its intermediate samples and its mixes.
    fn of(mut frame: Mixing) -> Call {
        let intermediate = frame.intermediate()[..4 * WORDS].to_vec();
        let Mixing { volume, switches, read, offsets, memory, mixes } = frame;
        let [at, size] = [offsets[4], SIZES[4]].map(|n| n as usize);
        Call {
            volume,
            switches,
            read,
            offsets,
            lengths: memory.regions.each_ref().map(Vec::len),
            values: VALUES,
            fills: [0xA5, 0x5A],
            configuration: memory.regions[read as usize][at..at + size].to_vec(),
            intermediate,
            mixes: mixes.as_flattened().as_flattened()[..WORDS].try_into().unwrap(),
        }
    }

    /// nothing new in the configuration, places packed.
    fn plain(read: u32) -> Call {
        let mut frame = Mixing::packed(0xA5, read);
        frame.configure(0, [0; 3], [0; 3]);
        frame.intermediate().fill(0);
        Call::of(frame)
    }

    fn part(&self) -> Vec<u8> {
        let mut words = self.offsets.to_vec();
        words.extend(self.lengths.map(|length| length as u32));
        words.extend([self.values as u32, self.read]);
        let mut part = state(self.volume.map(f32::to_bits), self.switches.map(u8::from));
        part.extend(words.iter().flat_map(|word| word.to_le_bytes()));
        part.extend([self.fills[0], self.fills[1], 0, 0]);
        part.extend(&self.configuration);
        part.extend(&self.intermediate);
        part.extend(self.mixes.iter().flat_map(|value| value.to_le_bytes()));
        part
    }

    /// the frame that the part means.
    fn frame(&self) -> Mixing {
        let mut regions = self.fills.map(|fill| vec![fill; LONGEST + 1]);
        let region = &mut regions[(self.read != 0) as usize];
        let intermediate: Vec<u8> = self.intermediate.iter().copied().cycle().take(SIZES[6] as usize).collect();
        for (place, bytes) in [(4, &self.configuration), (6, &intermediate)] {
            let at = self.offsets[place] as usize;
            if at + bytes.len() <= region.len() {
                region[at..at + bytes.len()].copy_from_slice(bytes);
            }
        }
        for (region, length) in regions.iter_mut().zip(self.lengths) {
            region.truncate(length);
        }
        let mut frame = Mixing::new(self.offsets, regions, self.read);
        (frame.volume, frame.switches) = (self.volume, self.switches);
        for (i, value) in frame.mixes.as_flattened_mut().as_flattened_mut().iter_mut().enumerate() {
            *value = self.mixes[i % WORDS];
        }
        frame
    }

    /// writes the job. gives the number, which is document 01's table's, and
    /// what is heard first.
    fn record(&self, replay: &mut Replay) -> (u8, i16) {
        let frame = self.frame();
        let number = frame.number(self.values);
        let mixed = if number == 0 { frame.tick() } else { frame.refused() };
        let mut answer = vec![number, 0, 0, 0];
        answer.extend(state(mixed.volume.map(bits), mixed.switches));
        answer.extend(mixed.frame.iter().flat_map(|value| value.to_le_bytes()));
        answer.extend(mixed.regions.iter().flat_map(|region| sum(region).to_le_bytes()));
        replay.job(MIXER, &self.part(), &answer);
        (number, mixed.frame[0])
    }
}

fn state(volume: [u32; 3], [aux0, aux1, mono]: [u8; 3]) -> Vec<u8> {
    volume.iter().flat_map(|bits| bits.to_le_bytes()).chain([aux0, aux1, mono, 0]).collect()
}

/// document 01's traps: two mixes in turn, and what the left speaker plays
/// first. a mix has 640 values, its first is the left speaker's first.
fn by_hand() -> [(Call, i16); 2] {
    [(0, 40_000, -10_000, 22_767), (1, -20_000, 60_000, 12_767)].map(|(mix, first, second, heard)| {
        let mut call = Call::plain(0);
        for (mix, value) in [(mix, first), (mix + 1, second)] {
            call.volume[mix] = 1.0;
            call.mixes[mix * 640 % WORDS] = value;
        }
        (call, heard)
    })
}

fn varied(random: &mut Random, read: u32) -> Mixing {
    let mut frame = Mixing::packed(0xA5, read);
    frame.vary(random);
    frame
}

fn served(random: &mut Random) -> Vec<Call> {
    let mut calls = Vec::new();
    // every switch on and off, in both regions
    for i in 0..16 {
        let mut frame = varied(random, i >> 3);
        frame.volume = [1.0, 0.5, 0.25];
        frame.switches = [0, 1, 2].map(|bit| i >> bit & 1 == 1);
        frame.configure(0, [0; 3], [0; 3]);
        calls.push(Call::of(frame));
    }
    for (mono, volume) in [(false, [f32::INFINITY, f32::NEG_INFINITY, 0.25]), (true, [3e38, -0.0, f32::NAN])] {
        let mut frame = varied(random, mono as u32);
        frame.volume = volume;
        frame.switches = [mono, false, mono];
        frame.configure(0, [0; 3], [0; 3]);
        let mut call = Call::of(frame);
        call.mixes[..20].fill(0);
        calls.push(call);
    }
    // configurations: all flags, twice, then aux and output alone, then none
    // that means anything
    let [one, half, infinite, nan] = [1.0, 0.5, f32::INFINITY, f32::NAN].map(f32::to_bits);
    for (flags, volumes, halves) in [
        (u32::MAX, [one, infinite, half], [0x0100, 0, 0]),
        (u32::MAX, [half, one, nan], [0, 2, 0x0100]),
        (1 << 8 | 1 << 9 | 1 << 26, [nan; 3], [1, 1, 2]),
        (!(3 << 8 | 1 << 16 | 7 << 24), [nan; 3], [1, 0, 1]),
    ] {
        let mut frame = varied(random, flags & 1);
        frame.volume = [0.75, -1.0, 1e-3];
        frame.configure(flags, volumes, halves);
        calls.push(Call::of(frame));
    }
    calls.extend((0..40).map(|i| Call::of(varied(random, i & 1))));
    calls
}

/// every number at its boundary and one beside, and the lowest of two.
fn boundaries(random: &mut Random) -> Vec<(Call, u8)> {
    let (places, end) = packed(ORDER, [0; 7]);
    let long = end as usize;
    let mut calls = Vec::new();
    let mut call = |number: u8, lengths: [usize; 2], offsets: [u32; 7], values: usize, read: u32| {
        let frame = varied(random, (read == 1) as u32);
        calls.push((Call { lengths, offsets, values, read, ..Call::of(frame) }, number));
    };
    let moved = |place: usize, at: u32| {
        let mut offsets = places;
        offsets[place] = at;
        offsets
    };
    for (number, lengths) in [
        (0, [long; 2]),
        (1, [long, long + 1]),
        (1, [long + 1, long]),
        (1, [LONGEST - 1, LONGEST]),
        (0, [LONGEST; 2]),
        (1, [LONGEST + 1; 2]),
        (2, [long - 1; 2]),
        (2, [0; 2]),
    ] {
        call(number, lengths, places, VALUES, 0);
    }
    for place in 0..7 {
        // it ends with the region, one byte past it, and past 32 bits
        let last = LONGEST as u32 - SIZES[place];
        for (number, at) in [(0, last), (2, last + 1), (2, u32::MAX)] {
            call(number, [LONGEST; 2], moved(place, at), VALUES, place as u32 & 1);
        }
        // it shares a byte with a neighbour, all of itself, or nothing
        let beside = places[(place + 1) % 7];
        let toward = if place == 6 { places[6] - 1 } else { places[place] + 1 };
        for (number, at) in [(0, end), (3, toward), (3, beside)] {
            call(number, [LONGEST; 2], moved(place, at), VALUES, place as u32 & 1);
        }
    }
    for (number, values) in [(6, VALUES - 1), (0, VALUES), (6, VALUES + 1), (6, 0)] {
        call(number, [long; 2], places, values, 1);
    }
    for (number, read) in [(0, 0), (0, 1), (8, 2), (8, 256), (8, u32::MAX)] {
        call(number, [long; 2], places, VALUES, read);
    }
    // the lowest of two that apply
    call(1, [LONGEST, LONGEST + 1], moved(6, LONGEST as u32), VALUES, 0);
    call(2, [LONGEST; 2], moved(6, u32::MAX), VALUES - 1, 2);
    call(2, [long; 2], moved(0, 1 + end), VALUES, 0);
    call(3, [long; 2], moved(0, 1), VALUES - 1, 0);
    call(6, [long; 2], places, VALUES + 1, 2);
    calls
}
