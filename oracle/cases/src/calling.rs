//! whole calls, for all voices, of the mixer and for one voice alone, frame
//! after frame, and the jobs of the program run_calls. the oracle's side is
//! the source's voices and mixer over one memory.

use std::mem::{swap, take};
use std::ops::Range;

use zakuro_core::memory::{Memory, Window};
use zakuro_core::services::dsp_mixer::Mixer;
use zakuro_core::services::dsp_voices::{Layout, VOICES, Voices, current_region};

use crate::configuring::{COEFFICIENTS, CONFIGURATION, Job, RECORD, malformed, record_of};
use crate::mixing::VALUES;
use crate::playing::{Play, halves};
use crate::serving::{Run, STATUS, count_on, flat, part};
use crate::{COUNTERS, Mixing, Random, floats, layout};

/// kinds of a job of run_calls.
pub const KIND_VOICES: u32 = 0;
pub const KIND_MIXER: u32 = 1;
pub const KIND_ALONE: u32 = 2;

/// bytes of what an answer begins with, before the memory.
pub const ANSWER: usize = 708;
const STATE: usize = 52;
const FRAME: usize = 68;

/// volumes, aux switches and whether the output is mono, in bytes.
pub type State = [u8; 16];

/// a call to be made, and all that is lent to it.
#[derive(Debug, Clone, PartialEq)]
pub struct Call {
    pub kind: u32,
    /// how often in a row, on what the one before left.
    pub times: u32,
    pub offsets: [u32; 7],
    pub base: u32,
    /// the region that the mixer reads, or the voice that is served alone.
    pub which: u32,
    pub state: State,
    pub records: Vec<Vec<u8>>,
    pub regions: [Vec<u8>; 2],
    pub window: Vec<u8>,
    pub lanes: Vec<i16>,
    pub mixes: Vec<i32>,
}

/// what a call comes to: the number, the voices refused with their numbers,
/// the mixer's state and frame, and what is left of what was lent.
#[derive(Debug, Clone, PartialEq)]
pub struct Returned {
    pub number: u8,
    pub refused: Vec<[u8; 2]>,
    pub state: State,
    pub frame: Vec<u8>,
    pub records: Vec<Vec<u8>>,
    pub regions: [Vec<u8>; 2],
    pub lanes: Vec<i16>,
    pub mixes: Vec<i32>,
}

fn words(values: &[i32]) -> Vec<u8> {
    values.iter().flat_map(|value| value.to_le_bytes()).collect()
}

impl Call {
    /// as the program reads it.
    pub fn bytes(&self) -> Vec<u8> {
        let Call { kind, times, offsets, base, which, state, records, regions, window, lanes, mixes } = self;
        let lengths = [records.len(), regions[0].len(), regions[1].len(), window.len(), lanes.len(), mixes.len()];
        let mut job = Vec::new();
        let head = [*kind, *times].into_iter().chain(*offsets).chain([*base, *which]);
        job.extend(head.flat_map(u32::to_le_bytes));
        job.extend(state);
        job.extend(lengths.into_iter().flat_map(|length| (length as u32).to_le_bytes()));
        records.iter().chain(regions).chain([window]).for_each(|part| job.extend(part));
        job.extend(halves(lanes));
        job.extend(words(mixes));
        job
    }

    /// document 01's numbers 1 to 7 of the calls for voices, and 10 of the one
    /// for a voice alone.
    pub fn number(&self) -> u8 {
        let [first, second] = &self.regions;
        let lane = self.lanes.len() / VOICES;
        match layout::number(first.len(), second.len(), &self.offsets) {
            0 if self.base as u64 + self.window.len() as u64 > 1 << 32 => 4,
            0 if self.records.len() != VOICES || self.lanes.len() != VOICES * lane || lane > 65_536 => 5,
            0 if self.mixes.len() != VALUES => 6,
            0 if self.records.iter().any(|record| malformed(record, lane as u32)) => 7,
            0 if self.kind == KIND_ALONE && self.which as usize >= VOICES => 10,
            number => number,
        }
    }

    /// what it leaves where it is refused as a whole.
    pub fn refused(&self, number: u8) -> Returned {
        let Call { state, records, regions, lanes, mixes, kind, .. } = self.clone();
        Returned {
            number,
            refused: Vec::new(),
            state: if kind == KIND_MIXER { state } else { [0; 16] },
            frame: vec![0; ANSWER - FRAME],
            records,
            regions,
            lanes,
            mixes,
        }
    }

    /// how many bytes its answer has.
    pub fn answered(&self) -> usize {
        let memory = self.records.len() * RECORD + self.regions[0].len() + self.regions[1].len();
        ANSWER + memory + self.lanes.len() * 2 + self.mixes.len() * 4
    }

    /// an answer to it, read from bytes.
    pub fn returned(&self, answer: &[u8]) -> Returned {
        let (head, mut rest) = answer.split_at(ANSWER);
        let mut next = |count: usize| {
            let (part, more) = rest.split_at(count);
            rest = more;
            part
        };
        Returned {
            number: head[0],
            refused: head[4..4 + 2 * (head[1] as usize).min(VOICES)].as_chunks().0.to_vec(),
            state: head[STATE..FRAME].try_into().unwrap(),
            frame: head[FRAME..].to_vec(),
            records: self.records.iter().map(|_| next(RECORD).to_vec()).collect(),
            regions: [0, 1].map(|region| next(self.regions[region].len()).to_vec()),
            lanes: next(self.lanes.len() * 2).as_chunks().0.iter().map(|half| i16::from_le_bytes(*half)).collect(),
            mixes: next(self.mixes.len() * 4).as_chunks().0.iter().map(|word| i32::from_le_bytes(*word)).collect(),
        }
    }
}

impl Returned {
    /// as the program writes it.
    pub fn bytes(&self) -> Vec<u8> {
        let Returned { number, refused, state, frame, records, regions, lanes, mixes } = self;
        let mut answer = vec![0; ANSWER];
        (answer[0], answer[1]) = (*number, refused.len() as u8);
        answer[4..4 + 2 * refused.len()].copy_from_slice(refused.as_flattened());
        answer[STATE..FRAME].copy_from_slice(state);
        answer[FRAME..].copy_from_slice(frame);
        records.iter().chain(regions).for_each(|part| answer.extend(part));
        answer.extend(halves(lanes));
        answer.extend(words(mixes));
        answer
    }
}

/// frames of 24 voices and the mixer, one after the other.
#[derive(Clone)]
pub struct Capture {
    pub(crate) runs: Vec<Run>,
    pub(crate) memory: Memory,
    voices: Voices,
    mixer: Mixer,
    pub(crate) offsets: [u32; 7],
    pub(crate) random: Random,
    read: usize,
}

impl Capture {
    /// voices of every kind over one memory of noise, its places packed or
    /// anywhere.
    pub fn new(mut random: Random) -> Capture {
        let window = match random.below(16) {
            0 => 0,
            1 => random.below(65_537),
            2..7 => random.below(2000),
            _ => random.below(300),
        };
        let lane = match random.below(32) {
            0 => random.pick(&[0, 1, 13, 14, 15, 2047, 2048]),
            1..4 => random.below(2049),
            _ => random.below(200),
        };
        Capture::sized(random, window, lane)
    }

    /// one with a window of so many bytes, and lanes of so many samples.
    pub fn sized(mut random: Random, window: usize, lane: usize) -> Capture {
        let (offsets, end) = match random.below(4) {
            0 => layout::packed(layout::ORDER, [0; 7]),
            _ => layout::random(&mut random),
        };
        let end = end as usize;
        let length = random.pick(&[end, end, end, end + 1, layout::LONGEST.min(end + 3000), layout::LONGEST]);
        let by = Layout {
            configurations: offsets[0],
            statuses: offsets[1],
            coefficients: offsets[2],
            frame_counter: offsets[3],
        };
        let first = Play::sized(&mut random, window, lane);
        let phys = Window { base: first.base, bytes: first.window.clone() };
        let mut plays = vec![first];
        while plays.len() < VOICES {
            let next = plays[0].beside(&mut random);
            plays.push(next);
        }
        let mut run = |(index, play)| Run::among(Random::new(random.word()), play, index, by);
        let runs = plays.into_iter().enumerate().map(&mut run).collect();
        let regions = [0, 1].map(|_| random.bytes(length));
        let memory = Memory { regions, phys };
        let mixing = Mixing::random(&mut random);
        let mut capture =
            Capture { runs, memory, voices: Voices::default(), mixer: mixing.mixer(), offsets, random, read: 0 };
        for region in 0..2 {
            for index in 0..VOICES {
                capture.memory.regions[region][part(by.configurations, CONFIGURATION, index)][..4].fill(0);
            }
        }
        let counters = [capture.random.pick(&COUNTERS), capture.random.pick(&COUNTERS)];
        capture.on_stage(0, |run| run.stage.choose(counters));
        capture
    }

    /// how many frames it is to have.
    pub fn frames(&mut self, most: usize) -> usize {
        1 + self.random.below(most)
    }

    /// lends the memory to one voice.
    fn on_stage<T>(&mut self, index: usize, act: impl FnOnce(&mut Run) -> T) -> T {
        let run = &mut self.runs[index];
        swap(&mut run.stage.memory, &mut self.memory);
        let done = act(run);
        swap(&mut run.stage.memory, &mut self.memory);
        done
    }

    fn layout(&self) -> Layout {
        self.runs[0].stage.layout
    }

    /// what happens before a frame: the title writes, for every voice and
    /// for the mixer.
    pub fn before(&mut self) {
        let (mut random, read) = (Random::new(self.random.word()), self.read);
        self.on_stage(0, |run| count_on(&mut random, &mut run.stage, read));
        for index in 0..VOICES {
            if self.random.below(2) == 0 {
                self.on_stage(index, Run::prepare);
            }
        }
        if self.random.below(3) == 0 {
            let mut mixing = Mixing::new(self.offsets, take(&mut self.memory.regions), self.read as u32);
            mixing.read = self.random.below(2) as u32;
            mixing.vary(&mut self.random);
            self.memory.regions = mixing.memory.regions;
        }
        // bytes that nobody should mind, and statuses and counters
        if self.random.below(4) == 0 {
            let place = self.random.pick(&[1, 5]);
            let at = self.offsets[place] as usize + self.random.below(layout::SIZES[place] as usize);
            let region = self.random.below(2);
            self.memory.regions[region][at] = self.random.word() as u8;
        }
    }

    fn state(&self) -> State {
        let (volume, [aux0, aux1], mono) = self.mixer.probe_state();
        let mut state = [0; 16];
        for (part, volume) in state.as_chunks_mut().0.iter_mut().zip(volume) {
            *part = floats::bits(volume).to_le_bytes();
        }
        state[12..15].copy_from_slice(&[aux0, aux1, mono].map(u8::from));
        state
    }

    /// a call on what there is, with the region read last for what it takes
    /// beside.
    pub fn call(&self, kind: u32, mixes: Vec<i32>) -> Call {
        Call {
            kind,
            times: 1,
            offsets: self.offsets,
            base: self.memory.phys.base,
            which: self.read as u32,
            state: if kind == KIND_MIXER { self.state() } else { [0; 16] },
            records: self.runs.iter().map(|run| run.record.clone()).collect(),
            regions: self.memory.regions.clone(),
            window: self.memory.phys.bytes.clone(),
            lanes: self.runs.iter().flat_map(|run| run.lane.clone()).collect(),
            mixes,
        }
    }

    /// the call for all voices, with noise in the mix buffer, and what it
    /// comes to on the oracle's side.
    pub fn serve(&mut self) -> (Call, Returned) {
        let call = self.noisy(KIND_VOICES);
        let returned = self.tick(0..VOICES);
        (call, returned)
    }

    /// the same for one voice alone: the others are kept out of the tick, as
    /// those that are refused.
    pub fn serve_alone(&mut self, voice: usize) -> (Call, Returned) {
        let call = Call { which: voice as u32, ..self.noisy(KIND_ALONE) };
        let returned = self.tick(voice..voice + 1);
        (call, returned)
    }

    fn noisy(&mut self, kind: u32) -> Call {
        let mixes = (0..VALUES).map(|_| self.random.word() as i32).collect();
        self.call(kind, mixes)
    }

    /// what a call that serves these voices comes to.
    fn tick(&mut self, served: Range<usize>) -> Returned {
        let layout = self.layout();
        self.read = current_region(&mut self.memory, layout) as usize;
        let read = self.read;
        let (mut refused, mut kept, mut playing) = (Vec::new(), Vec::new(), Vec::new());
        for index in 0..VOICES {
            if served.contains(&index) {
                let number = self.number(index);
                (self.runs[index].number, self.runs[index].read) = (number, read);
                if number == 0 {
                    self.decodes(index);
                    self.voices.probe_swap(index, &mut self.runs[index].stage.player);
                    playing.push(index);
                    continue;
                }
                refused.push([index as u8, number]);
            }
            kept.push(self.keep(index));
        }
        let mixes = flat(self.voices.tick(&mut self.memory, layout));
        for index in playing {
            let run = &mut self.runs[index];
            self.voices.probe_swap(index, &mut run.stage.player);
            run.record = record_of(&run.stage.player.voice());
        }
        for (index, configuration, status) in kept {
            self.put_back(index, &configuration, &status);
        }
        Returned { refused, ..self.call(KIND_VOICES, mixes).refused(0) }
    }

    /// what a voice's frame decodes goes into its lane.
    fn decodes(&mut self, index: usize) {
        self.on_stage(index, |run| {
            let mut lane = take(&mut run.lane);
            run.stage.decodes(&mut lane);
            run.lane = lane;
        });
    }

    /// 0, 20 or 21.
    fn number(&mut self, index: usize) -> u8 {
        let read = self.read;
        let job = self.on_stage(index, |run| Job {
            lane: run.lane.len() as u32,
            record: run.record.clone(),
            configuration: run.stage.configuration(read).to_vec(),
            coefficients: run.stage.coefficients(read).to_vec(),
        });
        assert_eq!(job.coefficients.len(), COEFFICIENTS);
        job.number()
    }

    /// a voice that is refused, or not to be served, stays out of the tick: its
    /// configuration says meanwhile that nothing is new. gives what is to come
    /// back.
    fn keep(&mut self, index: usize) -> (usize, Vec<u8>, Vec<u8>) {
        let read = self.read;
        self.on_stage(index, |run| {
            let (configuration, status) = (run.stage.configuration(read).to_vec(), run.stage.status(1 - read).to_vec());
            run.stage.configuration(read)[..4].fill(0);
            (index, configuration, status)
        })
    }

    fn put_back(&mut self, index: usize, configuration: &[u8], status: &[u8]) {
        let read = self.read;
        assert_eq!(status.len(), STATUS);
        self.on_stage(index, |run| {
            run.stage.configuration(read).copy_from_slice(configuration);
            run.stage.status(1 - read).copy_from_slice(status);
        });
    }

    /// the mixer's call on these mixes, and what it comes to on the oracle's
    /// side.
    pub fn mix(&mut self, mixes: &[i32]) -> (Call, Returned) {
        let mut call = self.call(KIND_MIXER, mixes.to_vec());
        (call.records, call.window, call.lanes, call.base) = (Vec::new(), Vec::new(), Vec::new(), 0);
        let quads = mixes.as_chunks().0.as_chunks().0.try_into().unwrap();
        let by = Mixing::new(self.offsets, [Vec::new(), Vec::new()], 0).layout();
        let frame = self.mixer.tick(&mut self.memory, by, self.read as u32, quads);
        let returned = Returned {
            state: self.state(),
            frame: halves(frame.as_flattened()),
            regions: self.memory.regions.clone(),
            ..call.refused(0)
        };
        (call, returned)
    }

    /// which region the last call read.
    pub fn read(&self) -> usize {
        self.read
    }
}
