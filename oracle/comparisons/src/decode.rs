//! the ADPCM decoder: samples, history and what must stay as it was, and
//! number 9, whose oracle is document 01's table.

use cases::{Decode, Random, bytes_of};
use zakuro_core::services::dsp_voices::probe_decode;

use crate::{port, same};

const MOST: usize = 65_536;
/// samples kept on both sides of what the port is lent.
const GUARD: usize = 16;

pub fn compare(random: &mut Random, count: usize) -> Result<u64, String> {
    let mut buffers = Buffers::default();
    let mut compared = 0;
    for case in Decode::fixed(random) {
        buffers.decode(random, &case)?;
        compared += 1;
    }
    let beside = |whole: usize| [whole - 1, whole, whole + 1];
    for count in (14..MOST).step_by(14).flat_map(beside).chain([MOST]) {
        let case = Decode::random(random, count);
        buffers.decode(random, &case)?;
        compared += 1;
    }
    for _ in 0..count {
        let count = match random.below(1000) {
            0 => random.below(MOST + 1),
            1..50 => random.below(1000),
            _ => random.below(61),
        };
        let case = Decode::random(random, count);
        buffers.decode(random, &case)?;
        compared += 1;
    }
    for _ in 0..1000 + count / 10 {
        let (count, bytes, room) = refused(random);
        buffers.refuse(random, count, bytes, room)?;
        compared += 1;
    }
    Ok(compared)
}

/// a count, how many bytes and how much room for samples, which the decoder
/// has to refuse.
fn refused(random: &mut Random) -> (usize, usize, usize) {
    let count = match random.below(50) {
        0 => MOST - random.below(20),
        _ => random.below(100),
    };
    let bytes = bytes_of(count);
    let over = MOST + 1 + random.pick(&[0, 0, 1, 13, 14, 1000]);
    match random.below(8) {
        0 => (count, bytes + 1 + random.below(8), count),
        1 => (count, bytes + 8, count + random.below(20)),
        2 => (count + 1, bytes_of(count + 1) - 1 - random.below(8), count + 1),
        3 => (count + 1, bytes_of(count + 1), random.below(count + 1)),
        4 => (count + 1, bytes_of(count + 1), count),
        // rarely, as it is long
        5 if random.below(20) == 0 => (over, bytes_of(over), over),
        // counts that look small once cut to 16 or 32 bits, or once 13 is
        // added or they are multiplied by 8
        6 => (count + (1 << random.pick(&[17, 32, 48, 60, 61, 63])), bytes, count),
        _ => (usize::MAX - random.below(30), random.below(3) * 8, random.below(30)),
    }
}

/// what the port writes into, kept from one input to the next.
#[derive(Default)]
struct Buffers {
    expected: Vec<i16>,
    lent: Vec<i16>,
    before: Vec<i16>,
}

impl Buffers {
    fn prepare(&mut self, random: &mut Random, room: usize) {
        let pattern = random.word();
        self.before.clear();
        self.before.extend((0..room + 2 * GUARD).map(|i| pattern.rotate_left(i as u32) as i16));
        self.lent.clone_from(&self.before);
    }

    fn decode(&mut self, random: &mut Random, case: &Decode) -> Result<(), String> {
        let Decode { coefficients, history, count, data } = case;
        let room = count + random.below(20);
        self.prepare(random, room);
        let (mut oracle, mut port) = (*history, *history);
        probe_decode(data, *count, coefficients, &mut oracle, &mut self.expected);
        let lent = &mut self.lent[GUARD..GUARD + room];
        let number = port::decode_adpcm(data, *count, coefficients, &mut port, lent);

        let input = || {
            format!("coefficients {coefficients:?}\nhistory {history:?}\ncount {count}\nbytes {data:02X?}\nroom {room}")
        };
        same!(0, number, "{}\nthe number", input());
        same!(self.expected.len(), *count, "{}\nhow many samples the oracle made", input());
        let samples = &self.lent[GUARD..GUARD + count];
        if let Some(at) = (0..*count).find(|&at| self.expected[at] != samples[at]) {
            same!(self.expected[at], samples[at], "{}\nsample {at}", input());
        }
        same!(oracle, port, "{}\nthe history", input());
        self.before[GUARD..GUARD + count].copy_from_slice(&self.expected);
        same!(self.before, self.lent, "{}\nthe buffer about the samples, {GUARD} places more on both sides", input());
        Ok(())
    }

    fn refuse(&mut self, random: &mut Random, count: usize, bytes: usize, room: usize) -> Result<(), String> {
        let data = random.bytes(bytes);
        let coefficients = std::array::from_fn(|_| random.word() as i16);
        let history = std::array::from_fn(|_| random.word() as i16);
        self.prepare(random, room);
        let mut port = history;
        let lent = &mut self.lent[GUARD..GUARD + room];
        let number = port::decode_adpcm(&data, count, &coefficients, &mut port, lent);
        same!(9, number, "count {count}, {bytes} bytes, room {room}\nthe number");
        same!(history, port, "count {count}, {bytes} bytes, room {room}\nthe history");
        same!(self.before, self.lent, "count {count}, {bytes} bytes, room {room}\nthe buffer");
        Ok(())
    }
}
