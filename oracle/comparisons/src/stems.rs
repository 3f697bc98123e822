//! the whole run and its stems, frame after frame: the run for all voices
//! and, for each of the 24, the run for it alone, every one over memory of its
//! own, from a common start, with the same writes before each frame. what
//! document 01 says of them is held on the port's answers alone; and each
//! answer is held against the oracle, which serves the same voices. number 10
//! by document 01's table, at its boundary and beside 1 to 7.

use std::fmt::Debug;
use std::ops::Range;

use cases::Random;
use cases::calling::{Call, Capture, KIND_ALONE, KIND_VOICES, Returned};
use cases::configuring::{CONFIGURATION, at_seven, decoded, voice_of};
use cases::layout::SIZES;
use cases::recording::{Recording, Write};
use cases::serving::{STATUS, part};
use zakuro_core::services::dsp_voices::{ProbeFormat, VOICES};

use crate::kinds::table;
use crate::run_calls::{Port, SPOILS, held, one, one_nan, plain};
use crate::same;

const FRAMES: usize = 60;
/// so many captures must meet every kind.
const MANY: usize = 100;

/// one of count is a capture.
pub fn compare(random: &mut Random, count: usize) -> Result<u64, String> {
    let mut port = Port::start()?;
    let by_hand = refusals(&mut port)?;
    let mut met = Met::default();
    for _ in 0..count {
        let seed = random.word();
        frames(&mut port, seed, &mut met).map_err(|told| format!("the capture of seed {seed}, {told}"))?;
    }
    port.end()?;
    met.tell(count)?;
    Ok(by_hand + (1 + VOICES as u64) * met.frames)
}

/// the run for all voices, or for one alone. `call` is the port's memory,
/// which its answers and the writes alone change; the oracle's is a capture.
struct Run {
    alone: Option<usize>,
    call: Call,
    oracle: Capture,
}

/// a frame of a run on the port's side: what was lent, and what was left.
struct Frame {
    given: Call,
    left: Returned,
}

impl Run {
    fn new(start: &Capture, alone: Option<usize>) -> Run {
        let kind = if alone.is_some() { KIND_ALONE } else { KIND_VOICES };
        Run { alone, call: start.call(kind, Vec::new()), oracle: start.clone() }
    }

    fn frame(&mut self, port: &mut Port, writes: &[Write]) -> Result<Frame, String> {
        self.call.write(writes);
        self.oracle.write(writes);
        let (lent, oracle) = match self.alone {
            Some(voice) => self.oracle.serve_alone(voice),
            None => self.oracle.serve(),
        };
        let given = Call { which: lent.which, mixes: lent.mixes.clone(), ..self.call.clone() };
        same!(true, lent == given, "whether both sides are lent the same");
        same!(0, given.number(), "the number by document 01");
        let left = port.answer(&given)?;
        held(&given, &oracle, &left)?;
        let Returned { records, regions, lanes, .. } = left.clone();
        (self.call.records, self.call.regions, self.call.lanes) = (records, regions, lanes);
        Ok(Frame { given, left })
    }
}

fn frames(port: &mut Port, seed: u64, met: &mut Met) -> Result<(), String> {
    let Recording { start, frames } = Recording::new(Random::new(seed), FRAMES);
    let mut whole = Run::new(&start, None);
    let mut stems: Vec<Run> = (0..VOICES).map(|voice| Run::new(&start, Some(voice))).collect();
    for (frame, writes) in frames.iter().enumerate() {
        met.written(&whole.call, writes);
        let before = whole.oracle.read();
        let all = whole.frame(port, writes).map_err(|told| format!("frame {frame}, the whole run: {told}"))?;
        let mut mixes = Vec::new();
        for (voice, stem) in stems.iter_mut().enumerate() {
            let alone = stem.frame(port, writes).and_then(|alone| {
                agree(voice, &all, &alone)?;
                others_stay(voice, &alone)?;
                Ok(alone)
            });
            let alone = alone.map_err(|told| format!("frame {frame}, the stem of voice {voice}: {told}"))?;
            mixes.push(alone.left.mixes);
        }
        met.wrapped += summed(&all.left.mixes, &mixes).map_err(|told| format!("frame {frame}, {told}"))? as u64;
        met.count(&all.left, &mixes, whole.oracle.read(), before);
    }
    Ok(())
}

fn alike<T: PartialEq + Debug>(what: &str, whole: T, stem: T) -> Result<(), String> {
    if whole == stem { Ok(()) } else { Err(format!("{what}\nwhole run: {whole:?}\nstem run:  {stem:?}")) }
}

/// where a voice's lane lies.
fn lane(call: &Call, voice: usize) -> Range<usize> {
    let length = call.lanes.len() / VOICES;
    length * voice..length * (voice + 1)
}

/// where a voice's configuration and its status lie in a region.
fn parts(call: &Call, voice: usize) -> [(&'static str, Range<usize>); 2] {
    let [configurations, statuses, ..] = call.offsets;
    [("configuration", part(configurations, CONFIGURATION, voice)), ("status", part(statuses, STATUS, voice))]
}

/// a voice's refusal number.
fn number(left: &Returned, voice: usize) -> u8 {
    left.refused.iter().find(|[refused, _]| *refused as usize == voice).map_or(0, |[_, number]| *number)
}

/// the whole run and the stem run of a voice hold the same for it after a
/// frame.
fn agree(voice: usize, whole: &Frame, stem: &Frame) -> Result<(), String> {
    let (call, [whole, stem]) = (&whole.given, [whole, stem].map(|frame| &frame.left));
    if [whole.number, stem.number] != [0, 0] {
        return Err(format!("the whole run's call returns {}, the stem run's {}", whole.number, stem.number));
    }
    if whole.records[voice] != stem.records[voice] {
        let [whole, stem] = [whole, stem].map(|left| voice_of(&left.records[voice]));
        return Err(format!("the record\nwhole run: {whole:?}\nstem run:  {stem:?}"));
    }
    alike("the lane", &whole.lanes[lane(call, voice)], &stem.lanes[lane(call, voice)])?;
    for region in 0..2 {
        for (what, part) in parts(call, voice) {
            let [whole, stem] = [whole, stem].map(|left| &left.regions[region][part.clone()]);
            alike(&format!("the {what} in region {region}"), whole, stem)?;
        }
    }
    alike("the refusal number", number(whole, voice), number(stem, voice))?;
    let listed = match number(stem, voice) {
        0 => Vec::new(),
        number => vec![[voice as u8, number]],
    };
    if stem.refused == listed { Ok(()) } else { Err(format!("the stem run's list is {:?}", stem.refused)) }
}

/// a stem run leaves all that is not the voice's own.
fn others_stay(voice: usize, stem: &Frame) -> Result<(), String> {
    let Frame { given, left } = stem;
    let mut kept = Returned { refused: left.refused.clone(), mixes: left.mixes.clone(), ..given.refused(0) };
    kept.records[voice].clone_from(&left.records[voice]);
    kept.lanes[lane(given, voice)].copy_from_slice(&left.lanes[lane(given, voice)]);
    for region in 0..2 {
        for (_, part) in parts(given, voice) {
            kept.regions[region][part.clone()].copy_from_slice(&left.regions[region][part]);
        }
    }
    held(given, &kept, left).map_err(|told| format!("what is not the voice's own: {told}"))
}

/// each mix value of the whole run is the sum of the stems' modulo 2^32. says
/// whether a sum wraps.
fn summed(whole: &[i32], stems: &[Vec<i32>]) -> Result<bool, String> {
    let mut wrapped = false;
    for (at, value) in whole.iter().enumerate() {
        let sum: i64 = stems.iter().map(|mixes| mixes[at] as i64).sum();
        if sum as i32 != *value {
            return Err(format!("the mixes differ first at {at}: the whole run {value}, the sum of the stems {sum}"));
        }
        wrapped |= sum != *value as i64;
    }
    Ok(wrapped)
}

/// where writes go.
const PLACES: [&str; 11] = [
    "writes into configurations",
    "into statuses",
    "into coefficients",
    "into frame counters",
    "into the mixer's configurations",
    "into final samples",
    "into intermediate samples",
    "into bytes of nobody",
    "into the window",
    "into decoded samples",
    "into lanes past them",
];
const NOBODY: usize = 7;
const WINDOW: usize = 8;
const DECODED: usize = 9;
const PAST: usize = 10;

/// what was met.
#[derive(Default)]
struct Met {
    frames: u64,
    wrapped: u64,
    read: [u64; 2],
    flipped: u64,
    served: u64,
    refused: [u64; 2],
    heard: u64,
    writes: [u64; PLACES.len()],
    /// voices that play decoded samples which were written.
    replaced: u64,
}

impl Met {
    /// the writes before a frame of the whole run.
    fn written(&mut self, call: &Call, writes: &[Write]) {
        let counts: Vec<usize> = call.records.iter().map(|record| decoded(record)).collect();
        let length = call.lanes.len() / VOICES;
        let mut replaced = [false; VOICES];
        for write in writes {
            let place = match *write {
                Write::Region(_, at, _) => place(call, at),
                Write::Window(..) => WINDOW,
                Write::Lanes(at, _) if at % length < counts[at / length] => {
                    replaced[at / length] = true;
                    DECODED
                }
                Write::Lanes(..) => PAST,
            };
            self.writes[place] += 1;
        }
        for (record, _) in call.records.iter().zip(replaced).filter(|(_, replaced)| *replaced) {
            let voice = voice_of(record);
            let plays = voice.enabled && voice.remaining > 0;
            self.replaced += (plays && voice.playing.is_some_and(|entry| entry.format == ProbeFormat::Adpcm)) as u64;
        }
    }

    fn count(&mut self, left: &Returned, stems: &[Vec<i32>], read: usize, before: usize) {
        self.frames += 1;
        self.heard += stems.iter().filter(|mixes| mixes.iter().any(|value| *value != 0)).count() as u64;
        self.read[read] += 1;
        self.flipped += (read != before) as u64;
        self.served += (VOICES - left.refused.len()) as u64;
        for [_, number] in &left.refused {
            self.refused[(*number - 20) as usize] += 1;
        }
    }

    fn tell(&self, captures: usize) -> Result<(), String> {
        let Met { frames, wrapped, read: [first, second], flipped, served, refused: [by_20, by_21], .. } = self;
        println!("stems: {captures} captures, {frames} frames of a whole run and 24 stems");
        let kinds = [
            ("frames with a sum that wraps", *wrapped),
            ("frames that read region 0", *first),
            ("frames that read region 1", *second),
            ("frames that read another one than before", *flipped),
            ("voices served", *served),
            ("voices refused by 20", *by_20),
            ("voices refused by 21", *by_21),
            ("voices heard", self.heard),
            ("voices that play decoded samples which were written", self.replaced),
        ];
        let never = table("stems", kinds.into_iter().chain(PLACES.into_iter().zip(self.writes)));
        if captures >= MANY && !never.is_empty() {
            return Err(format!("never met: {}", never.join("; ")));
        }
        Ok(())
    }
}

/// the place of a region that a byte is in.
fn place(call: &Call, at: usize) -> usize {
    let places = call.offsets.iter().zip(SIZES);
    let mut ranges = places.map(|(from, size)| *from as usize..*from as usize + size as usize);
    ranges.position(|range| range.contains(&at)).unwrap_or(NOBODY)
}

/// number 10 at its boundary, beside each of 1 to 7, and beside each rule of
/// 7, which is any voice's: the lower is given.
fn refusals(port: &mut Port) -> Result<u64, String> {
    let random = &mut Random::new(6);
    let mut calls = 0;
    let mut ask = |voice: u32, number: u8, told: &str, spoil: &dyn Fn(&mut Call)| {
        let mut call = Call { kind: KIND_ALONE, which: voice, ..plain(random) };
        spoil(&mut call);
        calls += 1;
        one(port, &call, number, &format!("voice {voice} alone, {told}"))
    };
    for voice in 0..VOICES as u32 {
        ask(voice, 0, "which there is", &|_| ())?;
    }
    for voice in [24, 25, 255, 256, 1 << 31, u32::MAX] {
        ask(voice, 10, "which there is not", &|_| ())?;
    }
    for (number, spoil) in SPOILS {
        for voice in [0, 23, 24, u32::MAX] {
            ask(voice, number, &format!("beside {number}"), &spoil)?;
        }
    }
    for (job, number) in at_seven(&mut Random::new(7)) {
        for (malformed, voice) in [(0, 0), (0, 23), (11, 0), (23, 11), (0, 24), (23, u32::MAX)] {
            let number = if number == 0 && voice > 23 { 10 } else { number };
            let spoil = |call: &mut Call| call.records[malformed] = one_nan(job.record.clone());
            ask(voice, number, &format!("voice {malformed} at 7"), &spoil)?;
        }
    }
    Ok(calls)
}
