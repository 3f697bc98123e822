//! one voice's whole frame, and what a title may write before it. the
//! oracle's side is the source's `tick` over all 24 voices.

use std::fmt;
use std::ops::Range;

use zakuro_core::memory::{Memory, Window};
use zakuro_core::services::dsp_voices::{
    Layout, ProbeBuffer, ProbeFollowed, ProbePlayer, ProbeVoice, QuadFrame, REGION_STRIDE, VOICES, Voices,
    current_region,
};
use zakuro_cpu::Bus;

use crate::configuring::{
    COEFFICIENTS, CONFIGURATION, ENTRY, FRAME, Job, PLACES, PLAYING, bits32, put, put_dsp32, read32, record_of,
    voice_of,
};
use crate::mixing::VALUES;
use crate::playing::{Place, Play, address, change, configuration, decode_into, length, litter, random_entry};
use crate::{COUNTERS, EXTREMES, Random, floats};

pub const STATUS: usize = 12;

/// flags of the dirty word, by their bits.
mod flag {
    pub const FORMAT: u32 = 0;
    pub const STEREO: u32 = 1;
    pub const COEFFICIENTS: u32 = 2;
    pub const LENGTHEN: u32 = 3;
    pub const PARTIAL_RESET: u32 = 4;
    pub const ENABLE: u32 = 16;
    pub const INTERPOLATION: u32 = 17;
    pub const RATE: u32 = 18;
    pub const SLOTS: u32 = 19;
    pub const POSITION: u32 = 21;
    pub const FILTERS: u32 = 22;
    pub const SIMPLE: u32 = 23;
    pub const BIQUAD: u32 = 24;
    pub const GAIN: u32 = 25;
    pub const SYNC: u32 = 28;
    pub const RESET: u32 = 29;
    pub const EMBEDDED: u32 = 30;
}

/// what a frame finds and may change.
#[derive(Debug, Clone, PartialEq)]
pub struct Lent {
    pub record: Vec<u8>,
    pub lane: Vec<i16>,
    pub configuration: Vec<u8>,
    pub status: Vec<u8>,
    pub mixes: Vec<i32>,
}

/// a voice's frame to be served.
#[derive(Debug, Clone)]
pub struct Serve {
    pub base: u32,
    pub window: Vec<u8>,
    pub coefficients: Vec<u8>,
    pub lent: Lent,
}

impl Serve {
    /// nothing new in the configuration, zeros in status and mixes.
    pub fn of(play: Play) -> Serve {
        let Play { base, window, lane, record } = play;
        let (configuration, status, mixes) = (vec![0; CONFIGURATION], vec![0; STATUS], vec![0; VALUES]);
        let lent = Lent { record, lane, configuration, status, mixes };
        Serve { base, window, coefficients: vec![0; COEFFICIENTS], lent }
    }

    /// what its configuration asks.
    pub fn job(&self) -> Job {
        Job {
            lane: self.lent.lane.len() as u32,
            record: self.lent.record.clone(),
            configuration: self.lent.configuration.clone(),
            coefficients: self.coefficients.clone(),
        }
    }

    /// the oracle's voices with this one among them, region 0 read.
    pub fn stage(&self, index: usize) -> Stage {
        let Lent { record, lane, .. } = &self.lent;
        let (base, window) = (self.base, self.window.clone());
        let (player, memory) = Play { base, window, lane: lane.clone(), record: record.clone() }.oracle();
        let mut stage = Stage::new(index, player, memory.phys, [vec![0; REGION], vec![0; REGION]]);
        stage.choose([1, 0]);
        stage.configuration(0).copy_from_slice(&self.lent.configuration);
        stage.coefficients(0).copy_from_slice(&self.coefficients);
        stage.status(1).copy_from_slice(&self.lent.status);
        stage
    }
}

/// all of it.
impl fmt::Display for Serve {
    fn fmt(&self, f: &mut fmt::Formatter) -> fmt::Result {
        let Serve { base, window, coefficients, lent } = self;
        let Lent { record, lane, configuration, status, mixes } = lent;
        writeln!(f, "base {base:#010X}, window {window:02X?}")?;
        writeln!(f, "coefficients {coefficients:02X?}")?;
        writeln!(f, "configuration {configuration:02X?}")?;
        writeln!(f, "status {status:02X?}")?;
        writeln!(f, "mixes {mixes:?}")?;
        writeln!(f, "lane {lane:?}")?;
        writeln!(f, "record {record:02X?}")?;
        if read32(record, 228) as usize <= PLACES { write!(f, "the voice {:?}", voice_of(record)) } else { Ok(()) }
    }
}

const LAYOUT: Layout = Layout { frame_counter: 0, coefficients: 4, statuses: 772, configurations: 1060 };
const REGION: usize = LAYOUT.configurations as usize + VOICES * CONFIGURATION;

/// the source's voices over memory. one of them is at hand; in its place and
/// everywhere else stand voices as they begin, with nothing new for them.
#[derive(Clone)]
pub struct Stage {
    pub index: usize,
    pub player: ProbePlayer,
    pub memory: Memory,
    pub(crate) layout: Layout,
    voices: Voices,
}

/// what a frame came to: the voice as it was, after its configuration and
/// after all, what was played, what was added, and what is left.
pub struct Framed {
    pub given: ProbeVoice,
    pub settled: ProbeVoice,
    pub after: ProbeVoice,
    pub followed: Option<ProbeFollowed>,
    pub parts: Vec<i32>,
    pub left: Lent,
}

impl Stage {
    fn new(index: usize, player: ProbePlayer, phys: Window, regions: [Vec<u8>; 2]) -> Stage {
        let memory = Memory { regions, phys };
        let mut stage = Stage { index, player, memory, layout: LAYOUT, voices: Voices::default() };
        for other in (0..VOICES).filter(|other| *other != index) {
            for region in &mut stage.memory.regions {
                region[part(LAYOUT.configurations, CONFIGURATION, other)][..4].fill(0);
            }
        }
        stage
    }

    pub fn configuration(&mut self, region: usize) -> &mut [u8] {
        let at = part(self.layout.configurations, CONFIGURATION, self.index);
        &mut self.memory.regions[region][at]
    }

    pub fn coefficients(&mut self, region: usize) -> &mut [u8] {
        let at = part(self.layout.coefficients, COEFFICIENTS, self.index);
        &mut self.memory.regions[region][at]
    }

    pub fn status(&mut self, region: usize) -> &mut [u8] {
        let at = part(self.layout.statuses, STATUS, self.index);
        &mut self.memory.regions[region][at]
    }

    /// writes the frame counters.
    pub fn choose(&mut self, counters: [u16; 2]) {
        self.memory.write16(self.layout.frame_counter, counters[0]);
        self.memory.write16(self.layout.frame_counter + REGION_STRIDE, counters[1]);
    }

    /// the region that is read.
    pub fn read(&mut self) -> usize {
        current_region(&mut self.memory, self.layout) as usize
    }

    /// addresses of configuration, coefficients and status, region 0 read.
    pub fn addresses(&self) -> [u32; 3] {
        let at = |from: u32, size: usize| from + (self.index * size) as u32;
        [
            at(self.layout.configurations, CONFIGURATION),
            at(self.layout.coefficients, COEFFICIENTS),
            REGION_STRIDE + at(self.layout.statuses, STATUS),
        ]
    }

    /// one tick. a voice that is refused stays out of it: its configuration
    /// says meanwhile that nothing is new, and it and its status come back.
    /// the record is left as it was given, and so are the mixes.
    pub fn frame(&mut self, number: u8, mut left: Lent) -> Framed {
        let read = self.read();
        let given = self.player.voice();
        if number != 0 {
            let (configuration, status) = (self.configuration(read).to_vec(), self.status(1 - read).to_vec());
            self.configuration(read)[..4].fill(0);
            let parts = flat(self.voices.tick(&mut self.memory, self.layout));
            assert!(parts.iter().all(|value| *value == 0), "a voice as it begins is heard");
            self.configuration(read).copy_from_slice(&configuration);
            self.status(1 - read).copy_from_slice(&status);
            let (settled, after) = (given.clone(), given.clone());
            return Framed { given, settled, after, followed: None, parts, left };
        }
        let settled = self.settled(read);
        let followed = settled.voice().enabled.then(|| settled.follow(&mut self.memory));
        followed.iter().for_each(|followed| decode_into(followed, &mut left.lane));
        self.voices.probe_swap(self.index, &mut self.player);
        let parts = flat(self.voices.tick(&mut self.memory, self.layout));
        self.voices.probe_swap(self.index, &mut self.player);
        let after = self.player.voice();
        assert_eq!(left.lane[..after.decoded.len()], after.decoded);
        left.record = record_of(&after);
        left.configuration.copy_from_slice(self.configuration(read));
        left.status.copy_from_slice(self.status(1 - read));
        left.mixes.iter_mut().zip(&parts).for_each(|(value, part)| *value = value.wrapping_add(*part));
        Framed { given, settled: settled.voice(), after, followed, parts, left }
    }

    /// what the voice's frame decodes goes into its lane. gives what it is
    /// to do.
    pub(crate) fn decodes(&mut self, lane: &mut [i16]) -> Option<ProbeFollowed> {
        let read = self.read();
        let settled = self.settled(read);
        let followed = settled.voice().enabled.then(|| settled.follow(&mut self.memory));
        followed.iter().for_each(|followed| decode_into(followed, lane));
        followed
    }

    /// a copy of the voice after its configuration.
    fn settled(&mut self, read: usize) -> ProbePlayer {
        let configuration = self.configuration(read).to_vec();
        let by = read as u32 * REGION_STRIDE;
        let [base, coefficients, _] = self.addresses();
        let mut player = self.player.clone();
        player.parse_config(&mut self.memory, by + base, by + coefficients);
        self.configuration(read).copy_from_slice(&configuration);
        player
    }
}

pub fn part(from: u32, size: usize, index: usize) -> Range<usize> {
    let at = from as usize + size * index;
    at..at + size
}

pub(crate) fn flat(mixes: [QuadFrame; 3]) -> Vec<i32> {
    mixes.as_flattened().as_flattened().to_vec()
}

/// frames of one voice, one after the other: on the oracle's side the stage;
/// for the port what stands there, with a record of its own, which may hold
/// something where no mark and no count reaches.
#[derive(Clone)]
pub struct Run {
    pub stage: Stage,
    random: Random,
    place: Place,
    pub(crate) record: Vec<u8>,
    pub(crate) lane: Vec<i16>,
    /// the number of the frame before, and the region that it read.
    pub number: u8,
    pub read: usize,
}

impl Run {
    /// a voice of every kind on a stage of noise, either region read. half of
    /// them begin with gains such as are heard.
    pub fn new(mut random: Random, mut play: Play) -> Run {
        canonical(&mut play.record);
        if random.below(2) == 0 {
            gain(&mut random, &mut play.record);
        }
        let (player, memory) = play.oracle();
        let regions = [0, 1].map(|_| random.bytes(REGION));
        let mut stage = Stage::new(random.below(VOICES), player, memory.phys, regions);
        for region in [0, 1] {
            stage.configuration(region)[..4].fill(0);
        }
        stage.choose([random.pick(&COUNTERS), random.pick(&COUNTERS)]);
        let (place, read) = (play.place(), stage.read());
        let Play { lane, record, .. } = play;
        Run { stage, random, place, record, lane, number: 0, read }
    }

    /// a voice among others, in memory that is theirs too.
    pub(crate) fn among(mut random: Random, mut play: Play, index: usize, layout: Layout) -> Run {
        canonical(&mut play.record);
        if random.below(2) == 0 {
            gain(&mut random, &mut play.record);
        }
        let (player, _) = play.oracle();
        let stage = Stage { index, player, memory: Memory::default(), layout, voices: Voices::default() };
        let place = play.place();
        let Play { lane, record, .. } = play;
        Run { stage, random, place, record, lane, number: 0, read: 0 }
    }

    /// how many frames it is to have.
    pub fn frames(&mut self, most: usize) -> usize {
        1 + self.random.below(most)
    }

    /// what the next frame is given.
    pub fn given(&mut self) -> Serve {
        let read = self.stage.read();
        Serve {
            base: self.place.base,
            window: self.stage.memory.phys.bytes.clone(),
            coefficients: self.stage.coefficients(read).to_vec(),
            lent: Lent {
                record: self.record.clone(),
                lane: self.lane.clone(),
                configuration: self.stage.configuration(read).to_vec(),
                status: self.stage.status(1 - read).to_vec(),
                mixes: random_mixes(&mut self.random),
            },
        }
    }

    /// the frame on the oracle's side.
    pub fn frame(&mut self, number: u8, given: &Serve) -> Framed {
        let read = self.stage.read();
        let framed = self.stage.frame(number, given.lent.clone());
        (self.record, self.lane) = (framed.left.record.clone(), framed.left.lane.clone());
        (self.number, self.read) = (number, read);
        framed
    }

    /// what happens before a frame: a title writes, the window is rewritten,
    /// the voice changed.
    pub fn before(&mut self) {
        count_on(&mut self.random, &mut self.stage, self.read);
        self.prepare();
    }

    /// the same with the frame counters as they are.
    pub(crate) fn prepare(&mut self) {
        let Run { random, place, stage, .. } = self;
        let mut voice = stage.player.voice();
        let mut changed = false;
        if random.below(4) == 0 {
            change(random, place, &mut voice, &mut stage.memory.phys.bytes);
            changed = true;
        }
        if random.below(24) == 0 {
            fill_queue(random, place, &mut voice);
            changed = true;
        }
        if random.below(24) == 0 {
            voice.buffer_update = true;
            changed = true;
        }
        let enabled = voice.enabled;
        if changed {
            self.record = record_of(&voice);
            stage.player.change(voice);
        }
        // a title gives up what was refused, or writes on
        if self.number != 0 && random.below(2) == 0 {
            stage.configuration(self.read)[..4].fill(0);
        }
        let next = stage.read();
        if random.below(2) == 0 {
            let region = if random.below(8) == 0 { 1 - next } else { next };
            write(random, place, stage, region);
        }
        if !enabled && random.below(2) == 0 {
            awaken(random, place, stage, next);
        }
        if random.below(16) == 0 {
            litter(random, &mut self.record);
            canonical(&mut self.record);
        }
        if random.below(16) == 0 {
            let decoded = stage.player.voice().decoded.len();
            self.lane[decoded..].fill_with(|| random.word() as i16);
        }
    }
}

/// mixes to add to: mostly zeros, else any or such that sums wrap.
fn random_mixes(random: &mut Random) -> Vec<i32> {
    let mut mixes = vec![0; VALUES];
    match random.below(8) {
        0 => mixes.fill_with(|| random.word() as i32),
        1 => mixes.fill_with(|| random.pick(&[i32::MIN, i32::MAX, 0, -1])),
        _ => {}
    }
    mixes
}

/// the record in the bytes that the port writes for it: marks of 0 and 1,
/// codes that have a name, one form for what is not a number. only what
/// `litter` lays anywhere needs it.
fn canonical(record: &mut [u8]) {
    for entry in record[PLAYING..FRAME].chunks_mut(ENTRY) {
        entry[18] = entry[18].min(2);
        entry[19..].iter_mut().for_each(|mark| *mark = (*mark != 0) as u8);
    }
    for at in (144..192).step_by(4) {
        let ramp = f32::from_bits(read32(record, at));
        put(record, at, bits32(ramp).to_le_bytes());
    }
}

/// queues entries until few places are left, or none.
fn fill_queue(random: &mut Random, place: &Place, voice: &mut ProbeVoice) {
    let count = PLACES - random.below(4);
    while voice.queue.len() < count {
        let entry = random_entry(random, place, voice.rate, true);
        voice.queue.push(ProbeBuffer { looping: random.below(64) == 0, ..entry });
    }
}

/// what a title does to a configuration: writes it whole, or a few fields
/// each with its flag.
fn write(random: &mut Random, place: &Place, stage: &mut Stage, region: usize) {
    if random.below(4) == 0 {
        let bytes = configuration(random, place);
        stage.configuration(region).copy_from_slice(&bytes);
        random.fill(stage.coefficients(region));
        return;
    }
    for _ in 0..=random.below(4) {
        let rate = stage.player.voice().rate;
        match random.below(15) {
            0..3 => gains(random, stage.configuration(region)),
            3 | 4 => filters(random, stage.configuration(region)),
            5 | 6 => queue(random, place, rate, stage.configuration(region)),
            7 => embed(random, place, rate, stage.configuration(region)),
            8 => {
                random.fill(stage.coefficients(region));
                set(stage.configuration(region), flag::COEFFICIENTS);
            }
            _ => field(random, place, rate, stage.configuration(region)),
        }
    }
}

fn set(bytes: &mut [u8], bit: u32) {
    let word = read32(bytes, 0) | 1 << bit;
    put(bytes, 0, word.to_le_bytes());
}

/// switches a voice on and queues something.
fn awaken(random: &mut Random, place: &Place, stage: &mut Stage, region: usize) {
    let rate = stage.player.voice().rate;
    let bytes = stage.configuration(region);
    bytes[0xA0] = 1;
    set(bytes, flag::ENABLE);
    queue(random, place, rate, bytes);
}

/// gives a record gains such as are heard.
fn gain(random: &mut Random, record: &mut [u8]) {
    for at in (96..144).step_by(4) {
        put(record, at, heard(random).to_bits().to_le_bytes());
    }
}

/// a gain such as is heard, also below 0.
fn heard(random: &mut Random) -> f32 {
    random.word() as i16 as f32 / 8192.0
}

/// gains of some mixes, sometimes those that stand there.
fn gains(random: &mut Random, bytes: &mut [u8]) {
    let mixes = 1 + random.below(7);
    let kind = random.below(4);
    for mix in (0..3).filter(|mix| mixes >> mix & 1 == 1) {
        set(bytes, flag::GAIN + mix as u32);
        for at in (4 + 16 * mix..20 + 16 * mix).step_by(4) {
            let gain = match kind {
                0 => floats::gain(random),
                1 => random.pick(&[0.0, -0.0, 0.5, -0.5, 16_384.0, -16_384.0, 16_385.0, 3e38, -3e38]),
                2 => heard(random),
                _ => f32::from_bits(read32(bytes, at)),
            };
            put(bytes, at, gain.to_bits().to_le_bytes());
        }
    }
}

fn filters(random: &mut Random, bytes: &mut [u8]) {
    let any = |random: &mut Random| match random.below(3) {
        0 => random.pick(&EXTREMES),
        1 => (random.below(16_384) as i32 - 8192) as i16,
        _ => random.word() as i16,
    };
    match random.below(4) {
        0 | 1 => {
            put(bytes, 0x3A, (random.below(4) as u16).to_le_bytes());
            set(bytes, flag::FILTERS);
        }
        2 => {
            (0x3C..0x40).step_by(2).for_each(|at| put(bytes, at, any(random).to_le_bytes()));
            set(bytes, flag::SIMPLE);
        }
        _ => {
            (0x40..0x4A).step_by(2).for_each(|at| put(bytes, at, any(random).to_le_bytes()));
            set(bytes, flag::BIQUAD);
        }
    }
}

/// slots with entries such as are played; the lane's length and one more
/// among them.
fn queue(random: &mut Random, place: &Place, rate: f64, bytes: &mut [u8]) {
    put(bytes, 0x4A, (1 + random.below(15) as u16).to_le_bytes());
    for slot in 0..4 {
        let at = 0x4C + 20 * slot;
        put_dsp32(bytes, at, address(random, place));
        put_dsp32(bytes, at + 4, entry_length(random, place, rate));
        bytes[at + 14] = (random.below(3) == 0) as u8;
        bytes[at + 15] = (random.below(6) == 0) as u8;
        put(bytes, at + 16, (random.below(4) as u16).to_le_bytes());
    }
    set(bytes, flag::SLOTS);
}

fn embed(random: &mut Random, place: &Place, rate: f64, bytes: &mut [u8]) {
    put_dsp32(bytes, 0xAC, address(random, place));
    put_dsp32(bytes, 0xB0, entry_length(random, place, rate));
    put(bytes, 0xB4, (random.below(16) as u16).to_le_bytes());
    put(bytes, 0xBC, (random.below(4) as u16).to_le_bytes());
    put(bytes, 0xBE, (random.below(4) as u16).to_le_bytes());
    set(bytes, flag::EMBEDDED);
    if random.below(2) == 0 {
        put_dsp32(bytes, 0xA4, random.below(100) as u32);
        set(bytes, flag::POSITION);
    }
}

fn entry_length(random: &mut Random, place: &Place, rate: f64) -> u32 {
    match random.below(8) {
        0 => place.lane + random.below(2) as u32,
        1..4 => random.below(place.lane as usize + 1) as u32,
        _ => length(random, place, rate),
    }
}

/// one field, or a flag alone.
fn field(random: &mut Random, place: &Place, rate: f64, bytes: &mut [u8]) {
    match random.below(18) {
        0..4 => {
            bytes[0xA0] = random.pick(&[0, 1, 1, 255]);
            set(bytes, flag::ENABLE);
        }
        4 | 5 => {
            let rate = random.pick(&[1.0, 1.0, 0.5, 0.7, 1.3, 2.0, 0.0, -1.0, 1e-30, f32::INFINITY, f32::NAN]);
            put(bytes, 0x34, rate.to_bits().to_le_bytes());
            set(bytes, flag::RATE);
        }
        6 | 7 => {
            bytes[0x38] = random.below(4) as u8;
            set(bytes, flag::INTERPOLATION);
        }
        8 | 9 => {
            put(bytes, 0xB4, (random.below(16) as u16).to_le_bytes());
            set(bytes, flag::FORMAT);
            if random.below(2) == 0 {
                set(bytes, flag::STEREO);
            }
        }
        10 => set(bytes, flag::STEREO),
        11 | 12 => {
            put_dsp32(bytes, 0xB0, length(random, place, rate));
            set(bytes, flag::LENGTHEN);
        }
        13 => {
            put(bytes, 0xA2, (random.word() as u16).to_le_bytes());
            set(bytes, flag::SYNC);
        }
        14 => set(bytes, flag::PARTIAL_RESET),
        15 => set(bytes, flag::RESET),
        16 => set(bytes, flag::POSITION),
        // one that means nothing
        _ => set(bytes, random.pick(&[5, 15, 20, 31])),
    }
}

/// the frame counters after a frame that read this region: mostly the other
/// one is ahead, else all stays, or any are written.
pub(crate) fn count_on(random: &mut Random, stage: &mut Stage, read: usize) {
    let mut counters = [0, REGION_STRIDE].map(|by| stage.memory.read16(stage.layout.frame_counter + by));
    match random.below(8) {
        0 | 1 => {}
        2 => counters = [random.pick(&COUNTERS), random.pick(&COUNTERS)],
        _ => counters[1 - read] = counters[read].wrapping_add(1),
    }
    stage.choose(counters);
}
