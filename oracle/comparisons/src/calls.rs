//! whole calls, for all voices and of the mixer, frame after frame: numbers,
//! refused voices, records, lanes, both regions, mixes, the mixer's state and
//! frame, after each. run_calls serves the port's side through pipes. numbers
//! 1 to 7 by document 01's table, at their boundaries and any of them
//! together; nothing is written then.

use cases::Random;
use cases::calling::{Call, Capture, Returned};
use cases::configuring::at_seven;
use cases::layout::{LONGEST, SIZES};
use zakuro_core::services::dsp_voices::VOICES;

use crate::run_calls::{Port, SPOILS, Spoil, held, one, one_nan, plain};
use crate::same;

const FRAMES: usize = 60;

/// one of count is a capture.
pub fn compare(random: &mut Random, count: usize) -> Result<u64, String> {
    let mut port = Port::start()?;
    let by_hand = refusals(&mut port)?;
    let mut met = Met::default();
    for _ in 0..count {
        let seed = random.word();
        frames(&mut port, seed, &mut met).map_err(|told| format!("the capture of seed {seed}, {told}"))?;
    }
    port.end()?;
    met.tell(count)?;
    Ok(by_hand + 2 * met.frames)
}

/// what was met.
#[derive(Default)]
struct Met {
    frames: u64,
    served: u64,
    refused: [u64; 2],
    read: [u64; 2],
    flipped: u64,
    heard: u64,
    lanes: [u64; 3],
}

impl Met {
    fn count(&mut self, call: &Call, returned: &Returned, read: usize, before: usize) {
        self.frames += 1;
        self.served += (VOICES - returned.refused.len()) as u64;
        for [_, number] in &returned.refused {
            self.refused[(*number - 20) as usize] += 1;
        }
        self.read[read] += 1;
        self.flipped += (read != before) as u64;
        self.heard += returned.mixes.iter().any(|value| *value != 0) as u64;
        self.lanes[(call.lanes.len() / VOICES).min(1024) / 512] += 1;
    }

    fn tell(&self, captures: usize) -> Result<(), String> {
        let Met { frames, served, refused: [by_20, by_21], read: [first, second], flipped, heard, lanes } = self;
        println!("calls: {captures} captures, {frames} frames, {heard} of them heard");
        println!("calls: {served} voices served, {by_20} refused by 20, {by_21} by 21");
        println!("calls: region 0 read in {first}, region 1 in {second}, another one than before in {flipped}");
        println!("calls: lanes below 512, below 1024 and longer in {lanes:?} frames");
        let never = [*frames, *served, *by_20, *by_21, *first, *second, *flipped, *heard];
        if captures >= 100 && never.contains(&0) { Err("a kind of frame was never met".into()) } else { Ok(()) }
    }
}

fn frames(port: &mut Port, seed: u64, met: &mut Met) -> Result<(), String> {
    let mut capture = Capture::new(Random::new(seed));
    for frame in 0..capture.frames(FRAMES) {
        let before = capture.read();
        capture.before();
        let (call, oracle) = capture.serve();
        same!(0, call.number(), "frame {frame}, the number by document 01");
        held(&call, &oracle, &port.answer(&call)?).map_err(|told| format!("frame {frame}: {told}"))?;
        met.count(&call, &oracle, capture.read(), before);
        let (call, oracle) = capture.mix(&oracle.mixes);
        held(&call, &oracle, &port.answer(&call)?).map_err(|told| format!("frame {frame}: {told}"))?;
    }
    Ok(())
}

/// what is at a boundary, and still served.
const BESIDE: [Spoil; 7] = [
    |call| call.regions.iter_mut().for_each(|region| region.resize(LONGEST, 0)),
    |call| call.offsets[6] = call.regions[0].len() as u32 - SIZES[6],
    |call| call.base = (1u64 << 32).wrapping_sub(call.window.len() as u64) as u32,
    |call| (call.window, call.base) = (Vec::new(), u32::MAX),
    |call| call.lanes.clear(),
    |call| call.lanes.resize(VOICES * 2048, 3),
    |call| call.records[23][228] = 64,
];

/// each number at its boundary and beside it, each two of them and any of
/// them together, and every rule of number 7 in every voice.
fn refusals(port: &mut Port) -> Result<u64, String> {
    let random = &mut Random::new(5);
    let mut calls = 0;
    let mut met = [0; 8];
    for (which, beside) in BESIDE.iter().enumerate() {
        let mut call = plain(random);
        beside(&mut call);
        one(port, &call, 0, &format!("beside {which}"))?;
        calls += 1;
    }
    for (first, spoil) in SPOILS {
        for (second, and) in SPOILS {
            let mut call = plain(random);
            spoil(&mut call);
            if first != second {
                and(&mut call);
            }
            let number = call.number();
            // a way that makes one number apply may take away the other's
            if first == second || number == first.min(second) {
                met[number as usize] += 1;
            }
            one(port, &call, number, &format!("{first} and {second}"))?;
            calls += 1;
        }
    }
    for together in 0..1 << SPOILS.len() {
        // of the ways to one number, one
        let ways = || SPOILS.iter().enumerate().filter(|(way, _)| together >> way & 1 == 1);
        if (1..8).any(|number| ways().filter(|(_, (n, _))| *n == number).count() > 1) {
            continue;
        }
        let mut call = plain(random);
        ways().for_each(|(_, (_, spoil))| spoil(&mut call));
        let number = call.number();
        one(port, &call, number, &format!("together {together:b}"))?;
        calls += 1;
    }
    for (job, number) in at_seven(random) {
        for voice in [0, 11, 23] {
            let mut call = plain(random);
            call.records[voice] = one_nan(job.record.clone());
            one(port, &call, number, &format!("voice {voice} at 7"))?;
            calls += 1;
        }
    }
    if met[1..].contains(&0) { Err(format!("a number was never met: {met:?}")) } else { Ok(calls) }
}
