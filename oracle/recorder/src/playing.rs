//! the voices' part: frames played. each of the first is a case whose samples
//! can be told by hand, and is asserted.

use cases::Random;
use cases::playing::{self, Play, lengthen};
use zakuro_core::services::dsp_voices::{FRAME_SAMPLES, ProbeBuffer, ProbeFormat, ProbeInterpolation, ProbeVoice};

use crate::Replay;

use ProbeFormat::{Adpcm, Pcm8, Pcm16};

const BASE: u32 = 0x2000_0000;
/// ADPCM that decodes, with coefficients 0, to 1, -1, 7 and zeros.
const NIBBLES: [u8; 8] = [0, 0x1F, 0x70, 0, 0, 0, 0, 0];

/// an entry at the window's start.
fn entry(format: ProbeFormat, length: u32) -> ProbeBuffer {
    ProbeBuffer { address: BASE, ..playing::entry(format, length) }
}

/// a voice that has played so much of an entry.
fn amid(entry: ProbeBuffer, played: u32) -> ProbeVoice {
    ProbeVoice {
        enabled: true,
        interpolation: ProbeInterpolation::Linear,
        length: entry.length,
        remaining: entry.length - played,
        playing: Some(entry),
        ..ProbeVoice::default()
    }
}

/// a voice with nothing remaining that follows on to these entries.
fn before(queue: &[ProbeBuffer]) -> ProbeVoice {
    ProbeVoice { enabled: true, ran_out_at_frame_end: true, queue: queue.to_vec(), ..ProbeVoice::default() }
}

/// one that does not follow on.
fn waiting(queue: &[ProbeBuffer]) -> ProbeVoice {
    ProbeVoice { ran_out_at_frame_end: false, ..before(queue) }
}

fn bytes(samples: &[i16]) -> Vec<u8> {
    samples.iter().flat_map(|sample| sample.to_le_bytes()).collect()
}

/// the frame begins with these samples, alike in both channels, and all after
/// them is 0.
fn heard(voice: &ProbeVoice, samples: &[i16]) {
    let mut frame = [[0; 2]; FRAME_SAMPLES];
    samples.iter().zip(&mut frame).for_each(|(sample, place)| *place = [*sample; 2]);
    assert_eq!(voice.frame, frame, "{voice:?}");
}

struct Jobs<'a>(&'a mut Replay);

impl Jobs<'_> {
    fn add(&mut self, play: &Play) {
        self.0.stdin.extend(play.bytes());
        self.0.stdout.extend(play.answer());
    }

    /// adds a voice over a window and a lane, and gives both after the frame.
    fn at(&mut self, voice: &ProbeVoice, base: u32, window: &[u8], lane: &[i16]) -> (ProbeVoice, Vec<i16>) {
        let play = Play::of(voice, base, window.to_vec(), lane.to_vec());
        self.add(&play);
        play.played()
    }

    /// PCM16 samples at the base, no lane.
    fn pcm(&mut self, voice: &ProbeVoice, samples: &[i16]) -> ProbeVoice {
        self.at(voice, BASE, &bytes(samples), &[]).0
    }
}

pub fn playing(random: &mut Random, replay: &mut Replay) {
    let mut jobs = Jobs(replay);
    frames(&mut jobs);
    steps(&mut jobs);
    lengthened(&mut jobs);
    begun(&mut jobs);
    decoded(&mut jobs);
    absent(&mut jobs);
    for i in 0..14 {
        let (length, lane) = (random.below(120), random.below(40));
        let mut play = Play::sized(random, length, lane);
        // one that is malformed: remaining over length
        if i == 13 {
            play.record[240..248].copy_from_slice(&[1, 0, 0, 0, 0, 0, 0, 0]);
            assert_eq!(play.answer()[0], 7);
        }
        jobs.add(&play);
    }
}

/// how frames begin and end, and which entry is next.
fn frames(jobs: &mut Jobs) {
    // a silent dequeue, also of what the frame held; then nothing is queued
    // and the voice goes off, its frame cleared
    let mut voice = waiting(&[entry(Pcm16, 3)]);
    voice.frame = [[9; 2]; FRAME_SAMPLES];
    let after = jobs.pcm(&voice, &[1, 2, 3]);
    heard(&after, &[]);
    assert!(after.enabled && after.buffer_update && after.queue.is_empty());
    assert_eq!((after.remaining, after.current_buffer_id, after.position), (3, 5, 0));
    let mut voice = waiting(&[]);
    (voice.current_buffer_id, voice.position, voice.frame) = (5, 77, [[9; 2]; FRAME_SAMPLES]);
    let after = jobs.pcm(&voice, &[1, 2, 3]);
    heard(&after, &[]);
    assert!(!after.enabled && after.buffer_update);
    assert_eq!((after.current_buffer_id, after.last_buffer_id, after.position), (0, 5, 0));

    // an entry of 160 ends with the frame, one of 159 before it
    let ramp: Vec<i16> = (1..=160).collect();
    for length in [160, 159] {
        let after = jobs.pcm(&before(&[entry(Pcm16, length)]), &ramp);
        heard(&after, &ramp[..length as usize]);
        assert_eq!(after.ran_out_at_frame_end, length == 160);
    }

    // ids 7, 3, 3: the second goes; a looping entry makes no way
    let named = |id, place: u32| ProbeBuffer { id, address: BASE + 4 * place, ..entry(Pcm16, 1) };
    let after = jobs.pcm(&waiting(&[named(7, 0), named(3, 1), named(3, 2)]), &[1, 0, 2, 0, 3, 0]);
    assert_eq!(after.queue, [named(7, 0), named(3, 2)]);
    let looping = ProbeBuffer { looping: true, ..named(3, 1) };
    let after = jobs.pcm(&before(&[named(7, 0), looping.clone()]), &[1, 0, 2, 0]);
    heard(&after, &[2; 160]);
    assert_eq!(after.queue, [named(7, 0), ProbeBuffer { has_played: true, ..looping }]);

    // position, id and update mark are the last dequeue's; 160 of them
    let last = ProbeBuffer { play_position: 1, address: BASE + 4, id: 8, ..entry(Pcm16, 3) };
    let after = jobs.pcm(&before(&[last, entry(Pcm16, 2)]), &[1, 2, 3, 4, 5]);
    heard(&after, &[1, 2, 4, 5]);
    assert_eq!((after.position, after.current_buffer_id, after.buffer_update), (1, 8, true));
    let round = ProbeBuffer { looping: true, id: 3, ..entry(Pcm16, 0) };
    let after = jobs.pcm(&before(&[round]), &[44]);
    heard(&after, &[44; 160]);
    assert_eq!((after.position, after.current_buffer_id, after.buffer_update), (0, 3, false));
    assert!(after.ran_out_at_frame_end);
}

/// steps through an entry.
fn steps(jobs: &mut Jobs) {
    // at half the rate, with and without interpolation; a rate past all; the
    // smallest
    let mut voice = amid(entry(Pcm16, 4), 0);
    voice.rate = 0.5;
    heard(&jobs.pcm(&voice, &[0, 100, 200, 300]), &[0, 50, 100, 150, 200, 250, 300, 300]);
    voice.interpolation = ProbeInterpolation::None;
    heard(&jobs.pcm(&voice, &[1, 100, 200, 300]), &[1, 1, 100, 100, 200, 200, 300, 300]);
    voice.rate = 1e300;
    let after = jobs.pcm(&voice, &[7, 100, 200, 300]);
    heard(&after, &[7]);
    assert_eq!((after.remaining, after.fraction), (0, 1e300 - 4.0));
    voice.rate = 5e-324;
    let after = jobs.pcm(&voice, &[7, 100, 200, 300]);
    heard(&after, &[7; 160]);
    assert_eq!((after.remaining, after.fraction), (4, 160.0 * 5e-324));

    // a fraction of 1 or more goes past the second sample, to the ends of 16
    // bits; between equal ones it stays, but if it is infinite; infinity and
    // -0.0 are taken
    for (fraction, samples, sample) in [
        (1.5, [0, 100], 150),
        (1.5, [0, 30_000], 32_767),
        (1.5, [7, 7], 7),
        (f64::INFINITY, [0, 1], 32_767),
        (f64::INFINITY, [7, 7], 0),
    ] {
        let mut voice = amid(entry(Pcm16, 2), 0);
        voice.fraction = fraction;
        let after = jobs.pcm(&voice, &samples);
        heard(&after, &[sample]);
        assert_eq!((after.remaining, after.fraction), (0, fraction - 1.0));
    }
    let mut voice = amid(entry(Pcm16, 2), 0);
    voice.fraction = -0.0;
    let after = jobs.pcm(&voice, &[-3, 100]);
    heard(&after, &[-3, 100]);
    assert_eq!(after.fraction.to_bits(), 0);

    // the place is by the record's length, the last sample by the entry's
    let mut voice = amid(entry(Pcm16, 3), 0);
    (voice.length, voice.remaining) = (6, 2);
    let after = jobs.pcm(&voice, &[1, 2, 3, 4, 5, 6]);
    heard(&after, &[3, 3]);
    assert_eq!(after.position, 4);
}

/// lengthening.
fn lengthened(jobs: &mut Jobs) {
    // to less than was played: nothing remains, the voice goes off
    let mut voice = amid(entry(Pcm16, 4), 3);
    lengthen(&mut voice, 2);
    let after = jobs.pcm(&voice, &[1, 2, 3, 4]);
    assert_eq!((after.length, after.enabled), (3, false));
    // with no entry playing: so many 0s
    let mut voice = before(&[]);
    lengthen(&mut voice, 5);
    let after = jobs.pcm(&voice, &[1, 2, 3, 4]);
    heard(&after, &[]);
    assert_eq!((after.length, after.remaining, after.enabled, after.playing), (5, 0, true, None));
    // a looping entry: not its copy in the queue
    let round = ProbeBuffer { looping: true, has_played: true, ..entry(Pcm16, 2) };
    let mut voice = amid(round.clone(), 1);
    voice.queue.push(round);
    lengthen(&mut voice, 4);
    let after = jobs.pcm(&voice, &[1, 2, 3, 4]);
    let rest = [1, 2].repeat(79);
    heard(&after, &[&[2, 3, 4][..], &rest[..157]].concat());
    // a voice that was finished goes on with its fraction
    let mut voice = amid(entry(Pcm16, 2), 2);
    voice.fraction = 0.5;
    lengthen(&mut voice, 4);
    heard(&jobs.pcm(&voice, &[10, 20, 30, 50]), &[40, 50]);
    // 0 to 100 at 1.5: at a rate of 2.5 the last sample of an entry leaves
    // that fraction, and the entry goes on with it once it is longer
    let mut voice = amid(entry(Pcm16, 1), 0);
    voice.rate = 2.5;
    let mut after = jobs.pcm(&voice, &[7, 0, 100]);
    heard(&after, &[7]);
    assert_eq!((after.remaining, after.fraction, after.enabled), (0, 1.5, true));
    lengthen(&mut after, 3);
    heard(&jobs.pcm(&after, &[7, 0, 100]), &[150]);
}

/// where an entry begins.
fn begun(jobs: &mut Jobs) {
    // at the play position, and the next time at 0
    let round = ProbeBuffer { looping: true, play_position: 2, ..entry(Pcm16, 4) };
    let after = jobs.pcm(&before(&[round.clone()]), &[1, 2, 3, 4]);
    let rest = [1, 2, 3, 4].repeat(40);
    heard(&after, &[&[3, 4][..], &rest[..158]].concat());
    // begun at its end it gives its last sample, and its fraction is dropped
    // by the next dequeue
    let late = ProbeBuffer { play_position: 9, ..entry(Pcm16, 4) };
    let mut voice = before(&[late.clone(), ProbeBuffer { id: 6, ..entry(Pcm16, 2) }]);
    voice.rate = 1.5;
    heard(&jobs.pcm(&voice, &[1, 2, 3, 4]), &[4, 1, 2]);
    // the same in a silent frame is never heard
    let after = jobs.pcm(&waiting(&[late]), &[1, 2, 3, 4]);
    heard(&after, &[]);
    assert_eq!((after.position, after.remaining, after.enabled), (4, 0, true));
    // of length 0, PCM gives its first sample, 0 where that is absent, and
    // ADPCM 0, whatever the lane holds
    heard(&jobs.pcm(&before(&[entry(Pcm16, 0)]), &[11, 22]), &[11]);
    heard(&jobs.pcm(&before(&[entry(Pcm8, 0)]), &[11, 22]), &[11 * 256]);
    heard(&jobs.pcm(&before(&[entry(Pcm16, 0)]), &[]), &[0]);
    let (after, lane) = jobs.at(&before(&[entry(Adpcm, 0)]), BASE, &NIBBLES, &[33, 44]);
    heard(&after, &[0]);
    assert_eq!((after.decoded.len(), after.enabled, lane), (0, true, vec![33, 44]));
}

/// ADPCM.
fn decoded(jobs: &mut Jobs) {
    // of two in a frame, the first's tail stays in the lane past the second's
    // count
    let first = [NIBBLES, [0, 0x23, 0x45, 0x67, 0, 0, 0, 0]].concat();
    let second = [0, 0x56, 0x70, 0, 0, 0, 0, 0];
    let then = ProbeBuffer { address: BASE + 16, id: 6, ..entry(Adpcm, 3) };
    let voice = before(&[then, entry(Adpcm, 20)]);
    let (after, lane) = jobs.at(&voice, BASE, &[&first[..], &second].concat(), &[99; 24]);
    assert_eq!(after.decoded, [5, 6, 7]);
    assert_eq!(lane[..17], [5, 6, 7, 0, 0, 0, 0, 0, 0, 0, 0, 0, 0, 0, 2, 3, 4]);
    assert_eq!(lane[17..], [5, 6, 7, 99, 99, 99, 99]);
    assert_eq!(after.frame[14..24].iter().map(|pair| pair[0]).collect::<Vec<_>>(), [2, 3, 4, 5, 6, 7, 5, 6, 7, 0]);
    assert_eq!(after.history, [7, 6]);

    // the mark sets the history with a PCM entry, and with ADPCM whose bytes
    // are absent
    let marked = |format| ProbeBuffer { adpcm: Some([-3, 8]), ..entry(format, 2) };
    assert_eq!(jobs.pcm(&before(&[marked(Pcm16)]), &[1, 2]).history, [-3, 8]);
    let (after, _) = jobs.at(&before(&[marked(Adpcm)]), BASE, &[], &[1; 4]);
    heard(&after, &[]);
    assert_eq!((after.history, after.decoded.len()), ([-3, 8], 0));

    // one sample wants its whole frame of 8 bytes
    let (after, lane) = jobs.at(&before(&[entry(Adpcm, 1)]), BASE, &NIBBLES[..7], &[99; 4]);
    heard(&after, &[0]);
    assert_eq!((after.decoded.len(), lane), (0, vec![99; 4]));
    let (after, lane) = jobs.at(&before(&[entry(Adpcm, 1)]), BASE, &NIBBLES, &[99; 4]);
    heard(&after, &[1]);
    assert_eq!((after.decoded, lane), (vec![1], vec![1, 99, 99, 99]));

    // an entry that comes round is decoded anew, whatever was written into
    // the lane
    let round = ProbeBuffer { looping: true, has_played: true, ..entry(Adpcm, 3) };
    let mut voice = amid(round.clone(), 3);
    voice.queue.push(round);
    voice.decoded = vec![70, 71, 72];
    let (after, lane) = jobs.at(&voice, BASE, &NIBBLES, &[99; 4]);
    heard(&after, &[]);
    assert_eq!((after.decoded, lane), (vec![1, -1, 7], vec![1, -1, 7, 99]));

    // the stereo mark is nothing to ADPCM
    let stereo = ProbeBuffer { stereo: true, ..entry(Adpcm, 3) };
    let (after, _) = jobs.at(&before(&[stereo]), BASE, &NIBBLES, &[99; 4]);
    heard(&after, &[1, -1, 7]);

    // what was decoded is heard, not the bytes as they are now; past the
    // count 0 is
    let mut voice = amid(entry(Adpcm, 5), 0);
    voice.decoded = vec![70, 71, 72];
    let (after, _) = jobs.at(&voice, BASE, &NIBBLES, &[99; 6]);
    heard(&after, &[70, 71, 72, 0, 0]);
    assert_eq!(after.remaining, 0);
}

/// bytes outside the window.
fn absent(jobs: &mut Jobs) {
    // a stereo sample with one channel inside is absent
    let stereo = |format| ProbeBuffer { stereo: true, ..entry(format, 2) };
    let (after, _) = jobs.at(&before(&[stereo(Pcm16)]), BASE, &bytes(&[1, 2, 3]), &[]);
    assert_eq!(after.frame[..3], [[1, 2], [0, 0], [0, 0]]);
    let (after, _) = jobs.at(&before(&[stereo(Pcm8)]), BASE, &[1, 2, 3], &[]);
    assert_eq!(after.frame[..3], [[256, 512], [0, 0], [0, 0]]);

    // partly absent; past 2^32 from the end of memory to its start; an index
    // whose place passes 2^32; low bits of the address
    heard(&jobs.pcm(&before(&[entry(Pcm16, 4)]), &[1, 2]), &[1, 2, 0, 0]);
    let high = ProbeBuffer { address: u32::MAX - 3, ..entry(Pcm16, 4) };
    heard(&jobs.at(&before(&[high.clone()]), 0, &bytes(&[5, 6, 7]), &[]).0, &[0, 0, 5, 6]);
    heard(&jobs.at(&before(&[high]), u32::MAX - 3, &bytes(&[8, 9]), &[]).0, &[8, 9, 0, 0]);
    let long = ProbeBuffer { stereo: true, ..entry(Pcm16, (1 << 30) + 3) };
    let after = jobs.pcm(&amid(long, (1 << 30) + 1), &[1, 1, 2, 2, 3, 3]);
    heard(&after, &[2, 3]);
    let odd = ProbeBuffer { address: BASE + 3, ..entry(Pcm8, 2) };
    heard(&jobs.at(&before(&[odd]), BASE, &[0xFF, 1], &[]).0, &[-256, 256]);
}
