//! records of a voice in bytes, and the configurations that are read into
//! them.

use std::fmt;

use zakuro_core::memory::Memory;
use zakuro_core::services::dsp_voices::{
    ProbeBiquad, ProbeBuffer, ProbeFilters, ProbeFormat, ProbeInterpolation, ProbeSimple, ProbeVoice,
    probe_parse_config,
};

use crate::{EXTREMES, Random, floats};

/// bytes of a record; the crate record_reader has their form.
pub const RECORD: usize = 2456;
pub const CONFIGURATION: usize = 192;
pub const COEFFICIENTS: usize = 32;
/// bytes of an answer: the number, 3 zeros, the record, the configuration.
pub const ANSWER: usize = 4 + RECORD + CONFIGURATION;

pub const ENTRY: usize = 24;
pub const PLAYING: usize = 256;
pub const QUEUE: usize = 280;
pub const FRAME: usize = 1816;
pub const PLACES: usize = 64;
/// where the record's filters stand: 17 words, the first 4 the simple one's.
pub const FILTERS: usize = 24;
const MARKS: [usize; 10] = [0, 1, 6, 7, 92, 93, 94, 232, 233, 234];

/// the kinds of a job of run_voice.
pub const KIND_CONFIGURATION: u32 = 0;
pub const KIND_FILTERS: u32 = 1;
pub const KIND_PLAYING: u32 = 2;
pub const KIND_SERVING: u32 = 3;

/// the bits that the port writes for what is not a number.
const NAN32: u32 = 0x7FC0_0000;
const NAN64: u64 = 0x7FF8_0000_0000_0000;

/// bits of the dirty word that mean something.
pub const FLAGS: [u32; 19] = [0, 1, 2, 3, 4, 16, 17, 18, 19, 21, 22, 23, 24, 25, 26, 27, 28, 29, 30];
const PARTIAL_RESET: u32 = 4;
const BUFFER_QUEUE: u32 = 19;
const RESET: u32 = 29;
const EMBEDDED_BUFFER: u32 = 30;

fn read16(bytes: &[u8], at: usize) -> u16 {
    u16::from_le_bytes(bytes[at..at + 2].try_into().unwrap())
}

pub(crate) fn read32(bytes: &[u8], at: usize) -> u32 {
    u32::from_le_bytes(bytes[at..at + 4].try_into().unwrap())
}

fn read64(bytes: &[u8], at: usize) -> u64 {
    u64::from_le_bytes(bytes[at..at + 8].try_into().unwrap())
}

fn dsp32(bytes: &[u8], at: usize) -> u32 {
    (read16(bytes, at) as u32) << 16 | read16(bytes, at + 2) as u32
}

pub(crate) fn put<const N: usize>(bytes: &mut [u8], at: usize, value: [u8; N]) {
    bytes[at..at + N].copy_from_slice(&value);
}

pub fn put_dsp32(bytes: &mut [u8], at: usize, value: u32) {
    put(bytes, at, value.rotate_left(16).to_le_bytes());
}

pub(crate) fn bits32(x: f32) -> u32 {
    if x.is_nan() { NAN32 } else { x.to_bits() }
}

fn bits64(x: f64) -> u64 {
    if x.is_nan() { NAN64 } else { x.to_bits() }
}

fn format_of(code: u8) -> ProbeFormat {
    match code {
        0 => ProbeFormat::Pcm8,
        1 => ProbeFormat::Pcm16,
        _ => ProbeFormat::Adpcm,
    }
}

fn entry_of(bytes: &[u8]) -> ProbeBuffer {
    ProbeBuffer {
        address: read32(bytes, 0),
        length: read32(bytes, 4),
        format: format_of(bytes[18]),
        stereo: bytes[19] != 0,
        looping: bytes[20] != 0,
        id: read16(bytes, 12),
        adpcm: (bytes[21] != 0).then(|| [14, 16].map(|at| read16(bytes, at) as i16)),
        from_queue: bytes[22] != 0,
        play_position: read32(bytes, 8),
        has_played: bytes[23] != 0,
    }
}

/// the voice that a record holds. what lies under a mark that is off, and
/// past the count, is lost.
pub fn voice_of(record: &[u8]) -> ProbeVoice {
    let on = |at: usize| record[at] != 0;
    let word = |at: usize| read32(record, at);
    let signed = |at: usize| read32(record, at) as i32;
    let half = |at: usize| read16(record, at) as i16;
    let gain = |at: usize| f32::from_bits(read32(record, at));
    let pairs = |at: usize| [0, 8].map(|by| [signed(at + by), signed(at + by + 4)]);
    let simple = on(6).then(|| ProbeSimple { b0: signed(24), a1: signed(28), y1: [signed(32), signed(36)] });
    let biquad =
        on(7).then(|| ProbeBiquad { b: [40, 44, 48].map(signed), a: [52, 56].map(signed), x: pairs(60), y: pairs(76) });
    let entry = |at: usize| entry_of(&record[at..at + ENTRY]);
    ProbeVoice {
        enabled: on(0),
        sync_count: read16(record, 2),
        rate: f64::from_bits(read64(record, 8)),
        format: format_of(record[4]),
        stereo: on(1),
        interpolation: match record[5] {
            0 => ProbeInterpolation::Polyphase,
            1 => ProbeInterpolation::Linear,
            _ => ProbeInterpolation::None,
        },
        filters: ProbeFilters { simple, biquad },
        gain: [96, 112, 128].map(|at| [0, 4, 8, 12].map(|by| gain(at + by))),
        ramp: [0, 1, 2].map(|mix| on(92 + mix).then(|| [0, 4, 8, 12].map(|by| gain(144 + 16 * mix + by)))),
        coefficients: std::array::from_fn(|i| half(192 + 2 * i)),
        history: [224, 226].map(half),
        queue: (0..word(228) as usize).map(|i| entry(QUEUE + i * ENTRY)).collect(),
        playing: on(232).then(|| entry(PLAYING)),
        decoded: vec![0; word(236) as usize],
        remaining: word(240),
        length: word(244),
        fraction: f64::from_bits(read64(record, 16)),
        current_buffer_id: read16(record, 252),
        last_buffer_id: read16(record, 254),
        buffer_update: on(233),
        position: word(248),
        frame: std::array::from_fn(|i| [half(FRAME + 4 * i), half(FRAME + 4 * i + 2)]),
        ran_out_at_frame_end: on(234),
    }
}

/// how many samples a record says are decoded.
pub fn decoded(record: &[u8]) -> usize {
    read32(record, 236) as usize
}

fn put_entry(entry: &ProbeBuffer, bytes: &mut [u8]) {
    put(bytes, 0, entry.address.to_le_bytes());
    put(bytes, 4, entry.length.to_le_bytes());
    put(bytes, 8, entry.play_position.to_le_bytes());
    put(bytes, 12, entry.id.to_le_bytes());
    let [yn1, yn2] = entry.adpcm.unwrap_or([0; 2]);
    put(bytes, 14, yn1.to_le_bytes());
    put(bytes, 16, yn2.to_le_bytes());
    let marks = [entry.stereo, entry.looping, entry.adpcm.is_some(), entry.from_queue, entry.has_played];
    bytes[18] = entry.format as u8;
    put(bytes, 19, marks.map(u8::from));
}

fn put_filters(filters: &ProbeFilters, bytes: &mut [u8]) {
    let simple = filters.simple.clone().unwrap_or(ProbeSimple { b0: 1 << 15, a1: 0, y1: [0; 2] });
    let none = ProbeBiquad { b: [1 << 14, 0, 0], a: [0; 2], x: [[0; 2]; 2], y: [[0; 2]; 2] };
    let biquad = filters.biquad.clone().unwrap_or(none);
    put(bytes, 6, [filters.simple.is_some(), filters.biquad.is_some()].map(u8::from));
    let first = [simple.b0, simple.a1].into_iter().chain(simple.y1);
    let state = [biquad.x, biquad.y];
    let second = biquad.b.into_iter().chain(biquad.a).chain(state.as_flattened().as_flattened().iter().copied());
    for (i, value) in first.chain(second).enumerate() {
        put(bytes, 24 + 4 * i, value.to_le_bytes());
    }
}

/// the record of a voice, with the blanks where something is off or past the
/// count.
pub fn record_of(voice: &ProbeVoice) -> Vec<u8> {
    let mut bytes = vec![0; RECORD];
    put(&mut bytes, 0, [voice.enabled, voice.stereo].map(u8::from));
    put(&mut bytes, 2, voice.sync_count.to_le_bytes());
    put(&mut bytes, 4, [voice.format as u8, voice.interpolation as u8]);
    put(&mut bytes, 8, bits64(voice.rate).to_le_bytes());
    put(&mut bytes, 16, bits64(voice.fraction).to_le_bytes());
    put_filters(&voice.filters, &mut bytes);
    put(&mut bytes, 92, voice.ramp.map(|ramp| ramp.is_some() as u8));
    let ramps = voice.ramp.map(|ramp| ramp.unwrap_or([0.0; 4]));
    for (i, gain) in [voice.gain, ramps].as_flattened().as_flattened().iter().enumerate() {
        put(&mut bytes, 96 + 4 * i, bits32(*gain).to_le_bytes());
    }
    for (i, value) in voice.coefficients.iter().chain(&voice.history).enumerate() {
        put(&mut bytes, 192 + 2 * i, value.to_le_bytes());
    }
    put(&mut bytes, 228, (voice.queue.len() as u32).to_le_bytes());
    let marks = [voice.playing.is_some(), voice.buffer_update, voice.ran_out_at_frame_end];
    put(&mut bytes, 232, marks.map(u8::from));
    let words = [voice.decoded.len() as u32, voice.remaining, voice.length, voice.position];
    for (i, word) in words.into_iter().enumerate() {
        put(&mut bytes, 236 + 4 * i, word.to_le_bytes());
    }
    put(&mut bytes, 252, voice.current_buffer_id.to_le_bytes());
    put(&mut bytes, 254, voice.last_buffer_id.to_le_bytes());
    if let Some(playing) = &voice.playing {
        put_entry(playing, &mut bytes[PLAYING..QUEUE]);
    }
    for (entry, place) in voice.queue.iter().zip(bytes[QUEUE..FRAME].chunks_mut(ENTRY)) {
        put_entry(entry, place);
    }
    for (value, place) in voice.frame.as_flattened().iter().zip(bytes[FRAME..].chunks_mut(2)) {
        put(place, 0, value.to_le_bytes());
    }
    bytes
}

/// a configuration to read into a record.
#[derive(Debug, Clone)]
pub struct Job {
    pub lane: u32,
    pub record: Vec<u8>,
    pub configuration: Vec<u8>,
    pub coefficients: Vec<u8>,
}

impl Job {
    /// nothing flagged, over the default record, all other bytes random.
    pub fn plain(random: &mut Random, lane: u32) -> Job {
        let mut job = Job {
            lane,
            record: record_of(&ProbeVoice::default()),
            configuration: random.bytes(CONFIGURATION),
            coefficients: random.bytes(COEFFICIENTS),
        };
        job.flag(0);
        job
    }

    /// a record and a configuration of every kind, with a random dirty word.
    /// one record of 64 has a rule of the well-formed broken, or nearly.
    pub fn random(random: &mut Random) -> Job {
        let lane = match random.below(4) {
            0 => random.pick(&[0, 1, 2, 14, 65_535, 65_536]),
            1 => random.below(65_537) as u32,
            _ => random.below(200) as u32,
        };
        let mut record = random_record(random, lane);
        if random.below(64) == 0 {
            malform(random, lane, &mut record);
        }
        let configuration = random_configuration(random, lane);
        Job { lane, record, configuration, coefficients: random.bytes(COEFFICIENTS) }
    }

    /// sets the dirty word.
    pub fn flag(&mut self, word: u32) {
        put(&mut self.configuration, 0, word.to_le_bytes());
    }

    /// sets how many entries are queued; they hold what stands there.
    pub fn queue(&mut self, count: u32) {
        put(&mut self.record, 228, count.to_le_bytes());
    }

    /// sets the format that the configuration names.
    pub fn format(&mut self, code: u16) {
        put(&mut self.configuration, 0xB4, (code << 2 | 1).to_le_bytes());
    }

    /// sets the length of the embedded entry.
    pub fn embedded(&mut self, length: u32) {
        put_dsp32(&mut self.configuration, 0xB0, length);
    }

    /// sets the mask of the slots and their lengths.
    pub fn slots(&mut self, mask: u16, lengths: [u32; 4]) {
        put(&mut self.configuration, 0x4A, mask.to_le_bytes());
        for (slot, length) in lengths.into_iter().enumerate() {
            put_dsp32(&mut self.configuration, 0x50 + 20 * slot, length);
        }
    }

    /// as the program reads it.
    pub fn bytes(&self) -> Vec<u8> {
        let head = [KIND_CONFIGURATION, self.lane].map(u32::to_le_bytes);
        [head.as_flattened(), &self.record, &self.configuration, &self.coefficients].concat()
    }

    /// document 01's numbers 7, 20 and 21.
    pub fn number(&self) -> u8 {
        if malformed(&self.record, self.lane) {
            return 7;
        }
        let word = read32(&self.configuration, 0);
        let set = |bit: u32| word >> bit & 1 == 1;
        let kept = if set(RESET) || set(PARTIAL_RESET) { 0 } else { read32(&self.record, 228) as usize };
        let mut lengths = Vec::new();
        if set(EMBEDDED_BUFFER) {
            lengths.push(dsp32(&self.configuration, 0xB0));
        }
        if set(BUFFER_QUEUE) {
            let mask = read16(&self.configuration, 0x4A);
            let slots = (0..4).filter(|slot| mask >> slot & 1 == 1);
            lengths
                .extend(slots.map(|slot| dsp32(&self.configuration, 0x50 + 20 * slot)).filter(|&length| length != 0));
        }
        let adpcm = if set(0) || set(EMBEDDED_BUFFER) {
            self.configuration[0xB4] >> 2 & 3 == 2
        } else {
            !set(RESET) && self.record[4] == 2
        };
        if kept + lengths.len() > PLACES {
            20
        } else if adpcm && lengths.iter().any(|&length| length > self.lane) {
            21
        } else {
            0
        }
    }

    /// what the program has to write: where it is served, what the oracle
    /// makes of it, else all as it was.
    pub fn answer(&self) -> Vec<u8> {
        let number = self.number();
        let head = [number, 0, 0, 0];
        if number != 0 {
            return [&head[..], &self.record, &self.configuration].concat();
        }
        let (mut voice, mut memory) = self.oracle();
        Job::parse(&mut voice, &mut memory);
        [&head[..], &record_of(&voice), &memory.regions[0][..CONFIGURATION]].concat()
    }

    /// the voice, and the configuration with the coefficients behind it in
    /// region 0.
    pub fn oracle(&self) -> (ProbeVoice, Memory) {
        let memory = Memory {
            regions: [[&self.configuration[..], &self.coefficients].concat(), Vec::new()],
            ..Memory::default()
        };
        (voice_of(&self.record), memory)
    }

    /// the source's reader on these.
    pub fn parse(voice: &mut ProbeVoice, memory: &mut Memory) {
        probe_parse_config(voice, memory, 0, CONFIGURATION as u32);
    }
}

/// rates about which number 7 turns, and whether they are malformed.
const RATES: [(f64, bool); 10] = [
    (0.0, true),
    (-0.0, true),
    (5e-324, false),
    (-5e-324, true),
    (f64::MAX, false),
    (f64::INFINITY, true),
    (f64::NEG_INFINITY, true),
    (f64::NAN, true),
    (-f64::NAN, true),
    (-1.0, true),
];

/// the same of fractions.
const FRACTIONS: [(f64, bool); 7] = [
    (0.0, false),
    (-0.0, false),
    (-5e-324, true),
    (f64::INFINITY, false),
    (f64::NEG_INFINITY, true),
    (f64::NAN, true),
    (-f64::NAN, true),
];

/// records at each rule of number 7 and one beside, with a lane of 100, over
/// the default record, with the number by document 01.
pub fn at_seven(random: &mut Random) -> Vec<(Job, u8)> {
    const LANE: u32 = 100;
    let mut jobs = Vec::new();
    let mut add = |malformed: bool, set: &dyn Fn(&mut [u8])| {
        let mut job = Job::plain(random, LANE);
        set(&mut job.record);
        jobs.push((job, if malformed { 7 } else { 0 }));
    };
    for past in [0, 1] {
        add(past == 1, &|record| put(record, 228, (PLACES as u32 + past).to_le_bytes()));
        add(past == 1, &|record| put(record, 236, (LANE + past).to_le_bytes()));
        for length in [0, 5, u32::MAX - 1] {
            add(past == 1, &|record| {
                put(record, 240, (length + past).to_le_bytes());
                put(record, 244, length.to_le_bytes());
            });
        }
    }
    // an entry of this format and length in this place, with 3 queued
    for (place, format, length) in
        [(0, 2, LANE + 1), (2, 2, LANE), (2, 2, LANE + 1), (3, 2, LANE + 1), (2, 1, LANE + 1), (2, 0, u32::MAX)]
    {
        add(place < 3 && format == 2 && length > LANE, &|record| {
            let entry = QUEUE + ENTRY * place;
            put(record, 228, 3u32.to_le_bytes());
            record[entry + 18] = format;
            put(record, entry + 4, length.to_le_bytes());
        });
    }
    for (rate, malformed) in RATES {
        add(malformed, &|record| put(record, 8, rate.to_bits().to_le_bytes()));
    }
    for (fraction, malformed) in FRACTIONS {
        add(malformed, &|record| put(record, 16, fraction.to_bits().to_le_bytes()));
    }
    // all of a filter's numbers at the boundary, and each of them past it;
    // past it under a mark that is off
    for (bound, past) in [(-32_768i32, -32_769i32), (32_768, 32_769)] {
        let fill = |record: &mut [u8], from: usize, to: usize, value: i32| {
            (from..to).for_each(|i| put(record, FILTERS + 4 * i, value.to_le_bytes()))
        };
        for i in 0..17 {
            add(true, &|record| {
                put(record, 6, [1, 1]);
                fill(record, 0, 17, bound);
                fill(record, i, i + 1, past);
            });
        }
        for marks in [[1, 1], [1, 0], [0, 1], [0, 0]] {
            add(false, &|record| {
                put(record, 6, marks);
                fill(record, 0, 4, if marks[0] == 1 { bound } else { past });
                fill(record, 4, 17, if marks[1] == 1 { bound } else { past });
            });
        }
    }
    jobs
}

/// gains that are not a number, with and without new ones, and ramps of them
/// with the mark on and off.
pub fn not_numbers(random: &mut Random) -> Vec<(Job, u8)> {
    let mut jobs = Vec::new();
    for (word, mark) in [(0, 0), (0, 1), (1 << 24 | 1 << 25 | 1 << 26, 0), (u32::MAX, 1)] {
        let mut job = Job::plain(random, 100);
        job.flag(word);
        job.format(1);
        put(&mut job.record, 92, [mark; 3]);
        for at in (96..192).step_by(4) {
            put(&mut job.record, at, NAN32.to_le_bytes());
        }
        jobs.push((job, 0));
    }
    jobs
}

/// document 01's list; what a mark or the count leaves out is not asked.
pub fn malformed(record: &[u8], lane: u32) -> bool {
    let stray = |from: usize, to: usize| {
        (from..to).step_by(4).any(|at| !(-32_768..=32_768).contains(&(read32(record, at) as i32)))
    };
    let queued = read32(record, 228) as usize;
    let (rate, fraction) = (f64::from_bits(read64(record, 8)), f64::from_bits(read64(record, 16)));
    queued > PLACES
        || read32(record, 240) > read32(record, 244)
        || read32(record, 236) > lane
        || record[QUEUE..].chunks(ENTRY).take(queued).any(|entry| entry[18] == 2 && read32(entry, 4) > lane)
        || !(rate > 0.0 && rate.is_finite())
        || !(fraction >= 0.0)
        || record[6] != 0 && stray(24, 40)
        || record[7] != 0 && stray(40, 92)
}

/// a length: none, about the lane's, short, or any.
fn length(random: &mut Random, lane: u32) -> u32 {
    let word = random.word();
    match word & 7 {
        0 => 0,
        1 => lane,
        2 => lane + 1,
        3 => lane.saturating_sub(1),
        4 => u32::MAX - (word >> 32 & 1) as u32,
        5 => (word >> 32) as u32,
        _ => (word >> 32) as u32 % (lane + 1),
    }
}

fn random_entry(random: &mut Random, lane: u32, queued: bool, bytes: &mut [u8]) {
    let mut length = length(random, lane);
    bytes[18] %= 3;
    if queued && bytes[18] == 2 && length > lane {
        length = lane - length % (lane + 1).min(3);
    }
    put(bytes, 4, length.to_le_bytes());
    bytes[19..].iter_mut().for_each(|mark| *mark &= 1);
}

/// a well-formed record. in three of four what lies under marks that are off
/// and past the count is blank.
pub fn random_record(random: &mut Random, lane: u32) -> Vec<u8> {
    let mut record = random.bytes(RECORD);
    let word = random.word();
    MARKS.iter().for_each(|&at| record[at] &= 1);
    record[4] %= 3;
    record[5] %= 3;
    record[95] = 0;
    record[235] = 0;
    let rate = floats::double(random).abs();
    let rate = if rate > 0.0 && rate.is_finite() { rate } else { 1.0 };
    put(&mut record, 8, rate.to_bits().to_le_bytes());
    let fraction = floats::double(random);
    let fraction = if fraction >= 0.0 { fraction } else { random.pick(&[0.0, -0.0, 0.5, f64::INFINITY]) };
    put(&mut record, 16, fraction.to_bits().to_le_bytes());
    for at in (24..92).step_by(4) {
        let on = record[if at < 40 { 6 } else { 7 }] != 0;
        let half = read16(&record, at) as i16 as i32;
        let value = if half & 15 == 0 { 32_768 * (half >> 4).signum() } else { half };
        if on || word & 1 == 0 {
            put(&mut record, at, value.to_le_bytes());
        }
    }
    for at in (96..192).step_by(4) {
        let gain = if random.below(16) == 0 { f32::NAN } else { f32::from_bits(read32(&record, at)) };
        put(&mut record, at, bits32(gain).to_le_bytes());
    }
    let queued = match word >> 1 & 3 {
        0 => 0,
        1 => PLACES - random.below(7),
        _ => random.below(PLACES + 1),
    };
    put(&mut record, 228, (queued as u32).to_le_bytes());
    let decoded = if word >> 3 & 63 == 0 { random.below(lane as usize + 1) as u32 } else { (word >> 9 & 15) as u32 };
    put(&mut record, 236, decoded.min(lane).to_le_bytes());
    let (length, remaining) = (length(random, lane), self::length(random, lane));
    put(&mut record, 240, remaining.min(length).to_le_bytes());
    put(&mut record, 244, length.to_le_bytes());
    for (i, entry) in record[PLAYING..FRAME].chunks_mut(ENTRY).enumerate() {
        random_entry(random, lane, 1 <= i && i <= queued, entry);
    }
    if word >> 20 & 3 != 0 { record_of(&voice_of(&record)) } else { record }
}

/// breaks a rule of a well-formed record, or nearly; a filter's or an
/// entry's only where it counts.
fn malform(random: &mut Random, lane: u32, record: &mut [u8]) {
    let past = random.below(2) as u32;
    let entry = QUEUE + ENTRY * random.below(PLACES);
    let length = read32(record, 244);
    match random.below(7) {
        0 => put(record, 228, (PLACES as u32 + past).to_le_bytes()),
        1 => put(record, 240, length.saturating_add(past).to_le_bytes()),
        2 => put(record, 236, (lane + past).to_le_bytes()),
        3 => {
            record[entry + 18] = 2;
            put(record, entry + 4, (lane + past).to_le_bytes());
        }
        4 => put(record, 8, random.pick(&RATES).0.to_bits().to_le_bytes()),
        5 => put(record, 16, random.pick(&FRACTIONS).0.to_bits().to_le_bytes()),
        _ => {
            let value = random.pick(&[-32_769, -32_768, 32_768, 32_769, i32::MIN, i32::MAX]);
            put(record, 24 + 4 * random.below(17), value.to_le_bytes());
        }
    }
}

fn random_flags(random: &mut Random) -> u32 {
    let word = random.word() as u32;
    let known = FLAGS.iter().map(|bit| 1 << bit).sum::<u32>();
    match random.below(10) {
        0 => 0,
        1 | 2 => 1 << random.pick(&FLAGS),
        3 => 1 << random.pick(&FLAGS) | 1 << random.pick(&FLAGS),
        4 => word & !known,
        5 => word,
        6 => word & known | 1 << RESET,
        7 => known,
        _ => word & known & !(1 << RESET),
    }
}

pub fn random_configuration(random: &mut Random, lane: u32) -> Vec<u8> {
    let mut bytes = random.bytes(CONFIGURATION);
    put(&mut bytes, 0, random_flags(random).to_le_bytes());
    for at in (4..0x38).step_by(4) {
        put(&mut bytes, at, floats::single(random).to_bits().to_le_bytes());
    }
    let word = random.word();
    // interpolation, enable, and the slots' marks
    for (i, at) in [0x38, 0xA0, 0x5A, 0x5B, 0x6E, 0x6F, 0x82, 0x83, 0x96, 0x97].into_iter().enumerate() {
        let code = word >> (3 * i) & 7;
        if code < 5 {
            bytes[at] = [0, 1, 2, 3, 255][code as usize];
        }
    }
    if word >> 40 & 1 == 0 {
        put(&mut bytes, 0x3A, ((word >> 41 & 3) as u16).to_le_bytes());
    }
    for at in (0x3C..0x4A).step_by(2) {
        if random.below(4) == 0 {
            put(&mut bytes, at, random.pick(&EXTREMES).to_le_bytes());
        }
    }
    if word >> 43 & 1 == 0 {
        put(&mut bytes, 0x4A, ((word >> 44 & 15) as u16).to_le_bytes());
    }
    for at in [0x50, 0x64, 0x78, 0x8C, 0xA4, 0xB0] {
        put_dsp32(&mut bytes, at, length(random, lane));
    }
    bytes
}

/// all of it.
impl fmt::Display for Job {
    fn fmt(&self, f: &mut fmt::Formatter) -> fmt::Result {
        let Job { lane, record, configuration, coefficients } = self;
        writeln!(f, "lane {lane}")?;
        writeln!(f, "record {record:02X?}")?;
        writeln!(f, "configuration {configuration:02X?}")?;
        writeln!(f, "coefficients {coefficients:02X?}")?;
        if read32(record, 228) as usize <= PLACES { write!(f, "the voice {:?}", voice_of(record)) } else { Ok(()) }
    }
}
