//! whole calls, for all voices, of the mixer and for one voice alone, for the
//! program run_calls: numbers 1 to 7 and 10, frames of captures, and at the
//! end a job of no kind.

use cases::Random;
use cases::calling::{Call, Capture, KIND_ALONE, Returned};
use zakuro_core::services::dsp_voices::VOICES;

use crate::Replay;

const WINDOW: usize = 400;
const LANE: usize = 30;
const CAPTURES: u64 = 3;
const FRAMES: usize = 12;

fn add(replay: &mut Replay, call: &Call, returned: &Returned) {
    replay.stdin.extend(call.bytes());
    replay.stdout.extend(returned.bytes());
}

/// adds a call that is refused with this number.
fn refused(replay: &mut Replay, call: &Call, number: u8) {
    assert_eq!(call.number(), number, "the number by document 01");
    add(replay, call, &call.refused(number));
}

/// what is lent is made less and less wrong, so that each number comes in its
/// turn, and no more of it than that takes.
fn refusals(replay: &mut Replay) {
    let (whole, _) = Capture::sized(Random::new(1), WINDOW, LANE).serve();
    let mut call = Call {
        records: Vec::new(),
        regions: [vec![1; 10], vec![2; 11]],
        window: vec![3; 9],
        base: u32::MAX,
        lanes: vec![4; 25],
        mixes: vec![5; 3],
        ..whole.clone()
    };
    refused(replay, &call, 1);
    call.regions[1].pop();
    refused(replay, &call, 2);
    call.regions = whole.regions.clone();
    call.offsets[3] = call.offsets[0];
    refused(replay, &call, 3);
    call.offsets = whole.offsets;
    refused(replay, &call, 4);
    call.base = whole.base;
    refused(replay, &call, 5);
    (call.records, call.lanes) = (whole.records.clone(), whole.lanes.clone());
    refused(replay, &call, 6);
    call.mixes = whole.mixes.clone();
    call.records[23][228] = 65;
    refused(replay, &call, 7);
    // another voice's record, and no such voice
    (call.kind, call.which) = (KIND_ALONE, 0);
    refused(replay, &call, 7);
    call.which = 24;
    refused(replay, &call, 7);
    call.records = whole.records.clone();
    refused(replay, &call, 10);
}

fn heard(returned: &Returned) -> bool {
    returned.mixes.iter().any(|value| *value != 0)
}

fn refused_by(returned: &Returned, number: u8) -> bool {
    returned.refused.iter().any(|[_, by]| *by == number)
}

/// what a voice may come to that is served alone.
type Kind = fn(&Call, &Returned) -> bool;

/// it decodes; it is heard and decodes nothing; it is not heard; 20; 21.
const ALONE: [Kind; 5] = [
    |call, returned| heard(returned) && returned.lanes != call.lanes,
    |call, returned| heard(returned) && returned.lanes == call.lanes,
    |_, returned| returned.refused.is_empty() && !heard(returned),
    |_, returned| refused_by(returned, 20),
    |_, returned| refused_by(returned, 21),
];

/// calls for one voice alone, of each kind the first in a capture, the last
/// voice first.
fn alone(replay: &mut Replay) {
    let mut capture = Capture::sized(Random::new(1), WINDOW, LANE);
    let mut wanted = ALONE.to_vec();
    while !wanted.is_empty() {
        capture.before();
        for voice in (0..VOICES).rev() {
            let (call, returned) = capture.clone().serve_alone(voice);
            if let Some(kind) = wanted.iter().position(|kind| kind(&call, &returned)) {
                wanted.remove(kind);
                add(replay, &call, &returned);
            }
        }
        capture.serve();
    }
}

pub fn calls() -> Replay {
    let mut replay = Replay::default();
    refusals(&mut replay);
    let mut numbers = [0; 2];
    for seed in 0..CAPTURES {
        let mut capture = Capture::sized(Random::new(seed), WINDOW, LANE);
        let mut full = false;
        for frame in 1..=FRAMES {
            capture.before();
            let frames = [capture.serve()];
            let [(_, returned)] = &frames;
            let mixed = capture.mix(&returned.mixes);
            // the last, and the first in which a voice is refused by 20
            let by_20 = refused_by(returned, 20);
            if frame < FRAMES && (full || !by_20) {
                continue;
            }
            full |= by_20;
            returned.refused.iter().for_each(|[_, number]| numbers[*number as usize - 20] += 1);
            frames.iter().chain([&mixed]).for_each(|(call, returned)| add(&mut replay, call, returned));
        }
    }
    assert!(!numbers.contains(&0), "no voice is refused by 20, or none by 21: {numbers:?}");
    alone(&mut replay);
    let (call, _) = Capture::sized(Random::new(9), 0, 0).serve();
    replay.stdin.extend(&Call { kind: 9, ..call }.bytes()[..84]);
    replay.stdout.extend([255, 2]);
    replay
}
