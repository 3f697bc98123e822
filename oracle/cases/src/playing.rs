//! a voice that plays: its record, its lane and the window, and what may
//! happen between two frames.

use std::fmt;

use zakuro_core::memory::{Memory, Window};
use zakuro_core::services::dsp_voices::{
    ProbeBuffer, ProbeFollowed, ProbeFormat, ProbeInterpolation, ProbePlayer, ProbeVoice,
};

use crate::configuring::{
    ENTRY, FILTERS, FRAME, KIND_PLAYING, PLACES, PLAYING, QUEUE, malformed, put_dsp32, random_configuration,
    random_record, record_of, voice_of,
};
use crate::{Random, floats};

/// an entry of a queue: mono, played once and from its start, at address 0.
pub fn entry(format: ProbeFormat, length: u32) -> ProbeBuffer {
    ProbeBuffer {
        address: 0,
        length,
        format,
        stereo: false,
        looping: false,
        id: 5,
        adpcm: None,
        from_queue: true,
        play_position: 0,
        has_played: false,
    }
}

/// rates at which counting a step turns.
const RATES: [f64; 18] = [
    5e-324,
    1e-310,
    f64::MIN_POSITIVE,
    1e-45,
    1e-10,
    0.999_999_999_999_999_9,
    1.000_000_000_000_000_2,
    159.999,
    65_536.0,
    2_147_483_647.0,
    2_147_483_647.5,
    2_147_483_648.0,
    4_294_967_295.0,
    4_294_967_295.5,
    4_294_967_296.0,
    4_294_967_297.0,
    1e300,
    f64::MAX,
];

const FRACTIONS: [f64; 10] =
    [-0.0, 5e-324, 0.5, 0.999_999_999_999_999_9, 1.0, 1.5, 2.75, 4_294_967_296.0, 1e300, f64::INFINITY];

const FORMATS: [ProbeFormat; 3] = [ProbeFormat::Pcm8, ProbeFormat::Pcm16, ProbeFormat::Adpcm];
const INTERPOLATIONS: [ProbeInterpolation; 3] =
    [ProbeInterpolation::Polyphase, ProbeInterpolation::Linear, ProbeInterpolation::None];

/// a frame to play.
#[derive(Debug, Clone)]
pub struct Play {
    pub base: u32,
    pub window: Vec<u8>,
    pub lane: Vec<i16>,
    pub record: Vec<u8>,
}

impl Play {
    /// a voice whose decoded samples stand at the start of the lane.
    pub fn of(voice: &ProbeVoice, base: u32, window: Vec<u8>, mut lane: Vec<i16>) -> Play {
        lane[..voice.decoded.len()].copy_from_slice(&voice.decoded);
        Play { base, window, lane, record: record_of(voice) }
    }

    /// a well-formed record of every kind. in one of four something lies
    /// where no mark and no count reaches.
    pub fn random(random: &mut Random) -> Play {
        let length = match random.below(16) {
            0 => 0,
            1 => random.below(65_537),
            2..7 => random.below(2000),
            _ => random.below(300),
        };
        let lane = match random.below(32) {
            0 => random.pick(&[0, 1, 13, 14, 15, 65_535, 65_536]),
            1..8 => random.below(2049),
            _ => random.below(200),
        };
        Play::sized(random, length, lane)
    }

    /// one with this window and lane.
    pub fn sized(random: &mut Random, length: usize, lane: usize) -> Play {
        let end = (1u64 << 32) - length as u64;
        let base = match random.below(8) {
            0 => 0,
            1 => end as u32,
            2 => random.below(64) as u32,
            _ => random.below(end as usize) as u32 & random.pick(&[!3, u32::MAX]),
        };
        let window = random.bytes(length);
        Play::over(random, base, window, lane)
    }

    /// one over this window.
    fn over(random: &mut Random, base: u32, window: Vec<u8>, lane: usize) -> Play {
        let lane: Vec<i16> = (0..lane).map(|_| random.word() as i16).collect();
        let voice = random_voice(random, &Place { base, length: window.len(), lane: lane.len() as u32 }, &lane);
        let mut play = Play::of(&voice, base, window, lane);
        if random.below(4) == 0 {
            litter(random, &mut play.record);
        }
        play
    }

    /// another one over the same window, with a lane as long.
    pub fn beside(&self, random: &mut Random) -> Play {
        Play::over(random, self.base, self.window.clone(), self.lane.len())
    }

    pub fn place(&self) -> Place {
        Place { base: self.base, length: self.window.len(), lane: self.lane.len() as u32 }
    }

    /// as the program reads it.
    pub fn bytes(&self) -> Vec<u8> {
        let head = [KIND_PLAYING, self.base, self.window.len() as u32].map(u32::to_le_bytes);
        let count = (self.lane.len() as u32).to_le_bytes();
        [head.as_flattened(), &self.window, &count, &halves(&self.lane), &self.record].concat()
    }

    pub fn oracle(&self) -> (ProbePlayer, Memory) {
        let mut voice = voice_of(&self.record);
        voice.decoded = self.lane[..voice.decoded.len()].to_vec();
        let memory = Memory { phys: Window { base: self.base, bytes: self.window.clone() }, ..Memory::default() };
        (ProbePlayer::new(voice), memory)
    }

    /// the voice after the frame, and the lane.
    pub fn played(&self) -> (ProbeVoice, Vec<i16>) {
        let ((mut player, mut memory), mut lane) = (self.oracle(), self.lane.clone());
        decode_into(&player.follow(&mut memory), &mut lane);
        player.probe_play_frame(&mut memory);
        (player.voice(), lane)
    }

    /// what the program has to write.
    pub fn answer(&self) -> Vec<u8> {
        if malformed(&self.record, self.lane.len() as u32) {
            return [&[7, 0, 0, 0], &self.record[..], &halves(&self.lane)].concat();
        }
        let (voice, lane) = self.played();
        [&[0; 4], &record_of(&voice)[..], &halves(&lane)].concat()
    }
}

/// writes what a frame decodes into the lane, all else stays.
pub fn decode_into(followed: &ProbeFollowed, lane: &mut [i16]) {
    for dequeued in &followed.dequeued {
        lane[..dequeued.decoded.len()].copy_from_slice(&dequeued.decoded);
    }
}

/// samples as bytes.
pub fn halves(samples: &[i16]) -> Vec<u8> {
    samples.iter().flat_map(|sample| sample.to_le_bytes()).collect()
}

/// where the window lies and how long it is, and the length of the lane.
#[derive(Debug, Clone, Copy)]
pub struct Place {
    pub base: u32,
    pub length: usize,
    pub lane: u32,
}

fn rate(random: &mut Random) -> f64 {
    match random.below(8) {
        0 | 1 => random.pick(&[1.0, 1.0, 1.0, 2.0, 3.0, 160.0]),
        2 => random.pick(&[0.5, 0.25, 1.5, 0.7, 1.3]),
        3 | 4 => ((random.below(3000) + 1) as f32 / 1000.0) as f64,
        5 => random.pick(&RATES),
        6 => 1.0 / (1 + random.below(300)) as f64,
        _ => {
            let rate = floats::double(random).abs();
            if rate > 0.0 && rate.is_finite() { rate } else { 1.0 }
        }
    }
}

fn fraction(random: &mut Random) -> f64 {
    match random.below(4) {
        0 => 0.0,
        1 => random.pick(&FRACTIONS),
        _ => random.below(1 << 53) as f64 / (1u64 << 53) as f64,
    }
}

/// a length: none, one, such as ends with a frame at this rate, about the
/// window's, or any.
pub(crate) fn length(random: &mut Random, place: &Place, rate: f64) -> u32 {
    match random.below(10) {
        0 => 0,
        1 => 1 + random.below(3) as u32,
        2 | 3 => {
            let whole = (160.0 * rate * (1 + random.below(3)) as f64).ceil() as u32;
            whole.saturating_add_signed(random.below(3) as i32 - 1)
        }
        4 => random.below(40) as u32,
        5 => random.below(place.length + 8) as u32,
        6 => random.pick(&[u32::MAX, 1 << 31, 1 << 30, (1 << 30) - 1]) - random.below(2) as u32,
        _ => random.below(400) as u32,
    }
}

pub(crate) fn address(random: &mut Random, place: &Place) -> u32 {
    let end = place.base.wrapping_add(place.length as u32);
    match random.below(10) {
        0 => random.word() as u32,
        1 => u32::MAX - random.below(64) as u32,
        2 => place.base.wrapping_sub(random.below(64) as u32),
        3 => end.wrapping_sub(random.below(64) as u32),
        _ => place.base.wrapping_add(random.below(place.length / 2 + 1) as u32),
    }
}

pub(crate) fn random_entry(random: &mut Random, place: &Place, rate: f64, queued: bool) -> ProbeBuffer {
    let format = random.pick(&FORMATS);
    let mut length = length(random, place, rate);
    if queued && format == ProbeFormat::Adpcm && length > place.lane {
        length = place.lane - random.below(place.lane as usize + 1).min(random.below(3)) as u32;
    }
    let play_position = match random.below(8) {
        0 => length,
        1 => random.below(length as usize + 1) as u32,
        2 => random.word() as u32,
        _ => 0,
    };
    ProbeBuffer {
        address: address(random, place),
        length,
        format,
        stereo: random.below(2) == 0,
        looping: random.below(6) == 0,
        id: if random.below(4) == 0 { random.word() as u16 } else { random.below(4) as u16 },
        adpcm: (random.below(3) == 0).then(|| [random.word() as i16, random.word() as i16]),
        from_queue: random.below(2) == 0,
        play_position,
        has_played: random.below(4) == 0,
    }
}

fn random_voice(random: &mut Random, place: &Place, lane: &[i16]) -> ProbeVoice {
    let mut voice = voice_of(&random_record(random, place.lane));
    voice.enabled = random.below(16) != 0;
    voice.rate = rate(random);
    voice.fraction = fraction(random);
    if random.below(2) == 0 {
        // as an encoder makes them
        voice.coefficients = std::array::from_fn(|_| (random.below(4096) as i32 - 2048) as i16);
    }
    if random.below(2) == 0 {
        voice.filters.simple = None;
        voice.filters.biquad = None;
    }
    let count = match random.below(16) {
        0 => PLACES,
        1 => random.below(PLACES + 1),
        _ => random.below(5),
    };
    voice.queue = (0..count).map(|_| random_entry(random, place, voice.rate, true)).collect();
    voice.playing = (random.below(8) != 0).then(|| random_entry(random, place, voice.rate, false));
    // mostly the entry's own length
    voice.length = match &voice.playing {
        Some(entry) if random.below(4) != 0 => entry.length,
        _ => length(random, place, voice.rate),
    };
    voice.remaining = match random.below(4) {
        0 => 0,
        1 => voice.length,
        _ => random.below(voice.length as usize + 1) as u32,
    };
    let decoded = match &voice.playing {
        Some(entry) if entry.format == ProbeFormat::Adpcm && random.below(4) != 0 => entry.length.min(place.lane),
        _ => random.below(place.lane as usize + 1) as u32,
    };
    voice.decoded = lane[..decoded as usize].to_vec();
    // an entry of length 0 that comes round with every sample
    if random.below(64) == 0 {
        let (length, id, looping) = (0, 0, true);
        voice.queue = vec![ProbeBuffer { length, id, looping, ..random_entry(random, place, voice.rate, true) }];
        voice.remaining = 0;
        voice.ran_out_at_frame_end = true;
    }
    voice
}

/// lays something where no mark and no count reaches.
pub fn litter(random: &mut Random, record: &mut [u8]) {
    let noise = random.bytes(record.len());
    let queued = u32::from_le_bytes(record[228..232].try_into().unwrap()) as usize;
    let mut spots = vec![(QUEUE + ENTRY * queued, FRAME)];
    if record[6] == 0 {
        spots.push((FILTERS, FILTERS + 16));
    }
    if record[7] == 0 {
        spots.push((FILTERS + 16, 92));
    }
    spots.extend((0..3).filter(|mix| record[92 + mix] == 0).map(|mix| (144 + 16 * mix, 160 + 16 * mix)));
    if record[232] == 0 {
        spots.push((PLAYING, QUEUE));
    }
    // a history under its mark
    let entries = (PLAYING..QUEUE + ENTRY * queued).step_by(ENTRY).filter(|at| record[at + 21] == 0);
    spots.extend(entries.map(|at| (at + 14, at + 18)));
    for (from, to) in spots {
        record[from..to].copy_from_slice(&noise[from..to]);
    }
}

/// changes a voice between two frames, and the window; says whether the
/// entry was lengthened.
pub fn change(random: &mut Random, place: &Place, voice: &mut ProbeVoice, window: &mut [u8]) -> bool {
    match random.below(9) {
        0..3 => {
            for _ in 0..=random.below(3) {
                if voice.queue.len() < PLACES {
                    voice.queue.push(random_entry(random, place, voice.rate, true));
                }
            }
        }
        3 => {
            let from = random.below(window.len() + 1);
            let part = &mut window[from..];
            let count = random.below(part.len() + 1);
            random.fill(&mut part[..count]);
        }
        4 => voice.rate = rate(random),
        5 => voice.interpolation = random.pick(&INTERPOLATIONS),
        6 => {
            let other = voice_of(&random_record(random, place.lane));
            voice.filters = other.filters;
            voice.format = other.format;
            voice.gain = other.gain;
            voice.ramp = other.ramp;
        }
        7 => {
            voice.enabled = true;
            voice.ran_out_at_frame_end = false;
        }
        _ => {
            lengthen(voice, length(random, place, voice.rate));
            return true;
        }
    }
    false
}

/// a configuration whose entries lie about the window.
pub fn configuration(random: &mut Random, place: &Place) -> Vec<u8> {
    let mut bytes = random_configuration(random, place.lane);
    for at in [0x4C, 0x60, 0x74, 0x88, 0xAC] {
        put_dsp32(&mut bytes, at, address(random, place));
    }
    bytes
}

/// as PARTIAL_EMBEDDED_BUFFER does.
pub fn lengthen(voice: &mut ProbeVoice, length: u32) {
    let played = voice.length - voice.remaining;
    voice.length = length.max(played);
    voice.remaining = voice.length - played;
    if let Some(playing) = &mut voice.playing {
        playing.length = voice.length;
    }
}

impl fmt::Display for Play {
    fn fmt(&self, f: &mut fmt::Formatter) -> fmt::Result {
        let Play { base, window, lane, record } = self;
        writeln!(f, "base {base:#010X}, window {window:02X?}")?;
        writeln!(f, "lane {lane:?}")?;
        writeln!(f, "record {record:02X?}")?;
        write!(f, "the voice {:?}", voice_of(record))
    }
}
