//! the voices' part: whole frames of one voice. document 01's cases by hand
//! come first, and what they must answer is asserted; then runs of frames.

use cases::Random;
use cases::configuring::{Job, KIND_SERVING, PLACES, record_of, voice_of};
use cases::playing::{Play, entry, halves};
use cases::serving::{Framed, Run, Serve};
use zakuro_core::services::dsp_voices::{FRAME_SAMPLES, ProbeBuffer, ProbeFormat, ProbeVoice};

use crate::Replay;

/// bytes of the window and samples of the lane, the same in every job of the
/// program run_voice.
const WINDOW: usize = 512;
const LANE: usize = 64;
const FRAMES: usize = 10;

/// a voice amid a long entry of this sample, with so many entries queued and
/// these gains, over a lane of ones; the mixes begin with 9.
fn amid(sample: i16, queued: usize, gain: f32) -> Serve {
    let entry = ProbeBuffer { address: 0x2000_0000, ..entry(ProbeFormat::Pcm16, 200) };
    let voice = ProbeVoice {
        enabled: true,
        gain: [[gain; 4]; 3],
        queue: vec![entry.clone(); queued],
        playing: Some(entry),
        length: 200,
        remaining: 200,
        ..ProbeVoice::default()
    };
    let window = halves(&[sample; WINDOW / 2]);
    let mut serve = Serve::of(Play::of(&voice, 0x2000_0000, window, vec![1; LANE]));
    serve.lent.mixes.fill(9);
    serve.lent.status.fill(255);
    serve
}

/// adds a frame as the program run_voice has it, with its number and what it
/// came to. its mixes begin with one number, its status with 255.
fn add(replay: &mut Replay, serve: &Serve, number: u8, framed: &Framed) {
    let first = serve.lent.mixes[0];
    assert!(serve.window.len() == WINDOW && serve.lent.lane.len() == LANE);
    assert!(serve.lent.mixes.iter().all(|value| *value == first));
    assert!(serve.lent.status.iter().all(|byte| *byte == 255));
    replay.stdin.extend([KIND_SERVING, serve.base, first as u32].map(u32::to_le_bytes).as_flattened());
    let lent = &serve.lent;
    for part in [&halves(&lent.lane), &serve.window, &serve.coefficients, &lent.record, &lent.configuration] {
        replay.stdin.extend(part);
    }
    let left = &framed.left;
    replay.stdout.extend([number, 0, 0, 0]);
    for part in [&left.record, &left.configuration, &left.status, &halves(&left.lane)] {
        replay.stdout.extend(part);
    }
    let sum = left.mixes.iter().fold(0u32, |sum, value| sum.wrapping_mul(31).wrapping_add(*value as u32));
    replay.stdout.extend(sum.to_le_bytes());
}

/// a frame alone, which must be answered with this number.
fn alone(replay: &mut Replay, serve: &Serve, number: u8) -> Framed {
    assert_eq!(serve.job().number(), number, "{serve}");
    let framed = serve.stage(0).frame(number, serve.lent.clone());
    assert_eq!(number != 0, framed.left == serve.lent, "{serve}");
    add(replay, serve, number, &framed);
    framed
}

pub fn serving(random: &mut Random, replay: &mut Replay) {
    by_hand(random, replay);
    let (mut disabled, mut heard) = (0, 0);
    // of runs, those that have a frame with this number
    for wanted in [20, 20, 21, 21, 0] {
        let frames = loop {
            let frames = frames(random);
            if frames.iter().any(|(_, number, _)| *number == wanted) {
                break frames;
            }
        };
        for (serve, number, framed) in frames {
            add(replay, &serve, number, &framed);
            disabled += (number == 0 && !framed.settled.enabled) as usize;
            heard += framed.parts.iter().any(|part| *part != 0) as usize;
        }
    }
    assert!(disabled > 0 && heard > 0);
}

/// a run of frames.
fn frames(random: &mut Random) -> Vec<(Serve, u8, Framed)> {
    let play = Play::sized(random, WINDOW, LANE);
    let mut run = Run::new(Random::new(random.word()), play);
    let frame = |_| {
        run.before();
        let mut serve = run.given();
        serve.lent.status.fill(255);
        serve.lent.mixes.fill(random.word() as i32);
        let number = serve.job().number();
        let framed = run.frame(number, &serve);
        (serve, number, framed)
    };
    (0..FRAMES).map(frame).collect()
}

/// numbers 20 and 21 at their boundaries, the fade that overflows, a voice
/// that is disabled and one that is switched off.
fn by_hand(random: &mut Random, replay: &mut Replay) {
    const EMBEDDED: u32 = 1 << 30;
    for (queued, code, length, number) in
        [(PLACES - 1, 1, 5, 0), (PLACES, 1, 5, 20), (0, 2, LANE, 0), (0, 2, LANE + 1, 21), (PLACES, 2, LANE + 1, 20)]
    {
        let mut serve = amid(100, queued, 0.5);
        let mut job = Job::plain(random, LANE as u32);
        job.flag(EMBEDDED);
        job.format(code);
        job.embedded(length as u32);
        serve.lent.configuration.copy_from_slice(&job.configuration);
        let framed = alone(replay, &serve, number);
        assert!(framed.left.mixes.iter().all(|value| *value == if number == 0 { 59 } else { 9 }));
    }

    let mut serve = amid(1, 0, -3e38);
    serve.lent.configuration[..4].copy_from_slice(&(7u32 << 25).to_le_bytes());
    for at in (4..0x34).step_by(4) {
        serve.lent.configuration[at..at + 4].copy_from_slice(&3e38f32.to_le_bytes());
    }
    let framed = alone(replay, &serve, 0);
    for channel in framed.parts.chunks(FRAME_SAMPLES) {
        assert_eq!((channel[0], channel[FRAME_SAMPLES - 1]), (0, 2_147_483_647));
    }

    // disabled it drops its ramps and tells its mark all the same; enabled,
    // with nothing that remains and nothing queued, it is switched off
    for (enabled, remaining, status) in
        [(false, 50, [0, 1, 0x34, 0x12, 0, 0, 7, 0, 5, 0, 0, 0]), (true, 0, [0, 1, 0x34, 0x12, 0, 0, 0, 0, 0, 0, 5, 0])]
    {
        let mut serve = amid(100, 0, 0.5);
        let mut voice = voice_of(&serve.lent.record);
        (voice.enabled, voice.remaining, voice.buffer_update) = (enabled, remaining, true);
        (voice.sync_count, voice.position, voice.current_buffer_id) = (0x1234, 7, 5);
        voice.ramp = [Some([0.25; 4]); 3];
        serve.lent.record = record_of(&voice);
        let framed = alone(replay, &serve, 0);
        assert!(framed.parts.iter().all(|part| *part == 0) && framed.after.ramp == [None; 3]);
        assert_eq!(framed.left.status, status);
    }
}
