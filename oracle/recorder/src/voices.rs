//! the voices' part: configurations, filters, frames played, frames served.

use cases::Random;
use cases::configuring::{FILTERS, FLAGS, Job, KIND_FILTERS, at_seven, not_numbers, record_of, voice_of};
use cases::floats::sample;
use zakuro_core::services::dsp_voices::{
    FRAME_SAMPLES, ProbeBiquad, ProbeFilters, ProbeSimple, ProbeVoice, probe_filters,
};

use crate::Replay;
use crate::playing::playing;
use crate::serving::serving;

/// jobs and answers as the crate run_voice has them.
pub fn voices() -> Replay {
    let mut replay = Replay::default();
    config(&mut Random::new(5), &mut replay);
    filters(&mut Random::new(6), &mut replay);
    playing(&mut Random::new(8), &mut replay);
    serving(&mut Random::new(9), &mut replay);
    replay
}

/// configurations: nothing flagged and every flag alone, over the default
/// record and a random one; all flags; the boundaries of numbers 7, 20 and 21
/// with the number that each must give; and random ones.
fn config(random: &mut Random, replay: &mut Replay) {
    let mut jobs = Vec::new();
    for word in FLAGS.map(|bit| 1 << bit).into_iter().chain([0, u32::MAX]) {
        let mut plain = Job::plain(random, 1000);
        plain.embedded(900);
        plain.slots(0b1011, [3, 0, 70_000, 1000]);
        let mut other = Job::random(random);
        for job in [&mut plain, &mut other] {
            job.flag(word);
        }
        jobs.extend([plain, other]);
    }
    // the queue holds 64; a slot of length 0 does not count, an embedded
    // entry of length 0 does, and what a reset frees is used again
    let [slots, embed] = [19, 30].map(|bit| 1 << bit);
    let mut expected = at_seven(random);
    expected.extend(not_numbers(random));
    for (queued, word, mask, length, embedded, number) in [
        (63, embed, 0, 5, 5, 0),
        (64, embed, 0, 5, 5, 20),
        (64, embed, 0, 5, 0, 20),
        (65, embed, 0, 5, 5, 7),
        (60, slots, 15, 5, 5, 0),
        (61, slots, 15, 5, 5, 20),
        (61, slots, 15, 0, 5, 0),
        (59, slots | embed, 15, 5, 5, 0),
        (60, slots | embed, 15, 5, 5, 20),
        (64, slots, 0, 5, 5, 0),
        (64, 1 << 4 | slots | embed, 15, 5, 5, 0),
        (64, 1 << 29 | slots | embed, 15, 5, 5, 0),
    ] {
        let mut job = Job::plain(random, 1000);
        job.queue(queued);
        job.flag(word);
        job.format(1);
        job.embedded(embedded);
        job.slots(mask, [5, 5, length, 5]);
        expected.push((job, number));
    }
    // ADPCM of the lane's length and one more, by the embedded entry and by
    // a slot; other formats; both numbers, and 7 before them
    for (queued, word, code, length, embedded, number) in [
        (0, embed, 2, 5, 1000, 0),
        (0, embed, 2, 5, 1001, 21),
        (0, embed, 3, 5, 1001, 0),
        (0, embed, 0, 5, u32::MAX, 0),
        (0, 1 | slots, 2, 1000, 1001, 0),
        (0, 1 | slots, 2, 1001, 5, 21),
        (0, slots, 2, 1001, 5, 0),
        (64, embed, 2, 5, 1001, 20),
        (63, embed, 2, 5, 1001, 21),
        (65, embed, 2, 5, 1001, 7),
    ] {
        let mut job = Job::plain(random, 1000);
        job.queue(queued);
        job.flag(word);
        job.format(code);
        job.embedded(embedded);
        job.slots(4, [1001, 1001, length, 1001]);
        expected.push((job, number));
    }
    for (job, number) in expected {
        assert_eq!(job.number(), number, "{job}");
        jobs.push(job);
    }
    jobs.extend((0..10).map(|_| Job::random(random)));

    for job in jobs {
        replay.stdin.extend(job.bytes());
        replay.stdout.extend(job.answer());
    }
}

/// filters: the default ones, extreme ones, sums that wrap, and random
/// records, with the default under a mark that is off; and filters out of
/// range, with their marks on and off.
fn filters(random: &mut Random, replay: &mut Replay) {
    let both = |b0, b1, a, kept| {
        let simple = ProbeSimple { b0, a1: a, y1: [kept; 2] };
        (simple, ProbeBiquad { b: [b0, b1, b1], a: [a; 2], x: [[kept; 2]; 2], y: [[kept; 2]; 2] })
    };
    let marked = |marks: u32, (simple, biquad): (ProbeSimple, ProbeBiquad)| ProbeFilters {
        simple: (marks & 1 != 0).then_some(simple),
        biquad: (marks & 2 != 0).then_some(biquad),
    };
    let counts = [160, 0, 1, 159];
    let mut jobs = Vec::new();
    for marks in 0..4 {
        let mut plain = both(1 << 15, 0, 0, 0);
        plain.1.b[0] = 1 << 14;
        let frame = std::array::from_fn(|_| [sample(random), sample(random)]);
        jobs.push((160, ProbeVoice { filters: marked(marks, plain), frame, ..ProbeVoice::default() }));
    }
    for (i, value) in [-32_768, 32_768, 0, 1, -1].into_iter().enumerate() {
        for marks in 1..4 {
            let frame = std::array::from_fn(|_| [sample(random), sample(random)]);
            let filters = marked(marks, both(value, value, value, value));
            let count = counts[(i + marks as usize) % 4];
            jobs.push((count, ProbeVoice { filters, frame, ..ProbeVoice::default() }));
        }
    }
    for value in [-32_768, 32_768] {
        for marks in 1..3 {
            let filters = marked(marks, both(-32_768, 0, value, value));
            let frame = [[-32_768; 2]; FRAME_SAMPLES];
            jobs.push((160, ProbeVoice { filters, frame, ..ProbeVoice::default() }));
        }
    }
    while jobs.len() < 40 {
        let job = Job::random(random);
        if job.number() != 7 {
            let count = if jobs.len() % 2 == 0 { random.pick(&counts) } else { random.below(FRAME_SAMPLES + 1) };
            jobs.push((count, voice_of(&job.record)));
        }
    }

    let mut answer = |count: usize, record: &[u8], served: bool, after: &[u8]| {
        replay.stdin.extend([KIND_FILTERS, count as u32].map(u32::to_le_bytes).as_flattened());
        replay.stdin.extend(record);
        replay.stdout.extend([served as u8, 0, 0, 0]);
        replay.stdout.extend(after);
    };
    for (count, mut voice) in jobs {
        let record = record_of(&voice);
        probe_filters(&mut voice.filters, &mut voice.frame[..count]);
        answer(count, &record, true, &record_of(&voice));
    }
    for (place, value) in [(0, -32_769), (3, 32_769), (4, 32_769), (16, -32_769)] {
        let mut record = record_of(&ProbeVoice::default());
        record[FILTERS + 4 * place..][..4].copy_from_slice(&i32::to_le_bytes(value));
        answer(160, &record, true, &record);
        record[if place < 4 { 6 } else { 7 }] = 1;
        answer(160, &record, false, &record);
    }
}
