//! one voice's whole frame, frame after frame: record, lane, configuration,
//! status and mixes after each, against the source's `tick` over 24 voices,
//! the others as they begin. between frames a title writes configurations,
//! the window is rewritten, the voice changed. numbers 5, 7, 20 and 21:
//! document 01's table; a voice that is refused is kept out of the tick.
//! tells how often each kind of frame was met.

use cases::Random;
use cases::configuring::{Job, PLACES, at_seven, put_dsp32, record_of, voice_of};
use cases::playing::{Play, entry, halves};
use cases::serving::{Framed, Lent, Run, Serve};
use zakuro_core::services::dsp_voices::{FRAME_SAMPLES, ProbeFormat, ProbeVoice};

use crate::served::{Met, Seen};
use crate::{port, same};

const FRAMES: usize = 60;

/// one of count is a run of frames.
pub fn compare(random: &mut Random, count: usize) -> Result<u64, String> {
    let by_hand = refusals()? + boundaries()? + fades()? + told()?;
    let mut met = Met::none();
    for _ in 0..count {
        let seed = random.word();
        frames(seed, &mut met).map_err(|told| format!("the run of seed {seed}, {told}"))?;
    }
    met.tell(count)?;
    Ok(by_hand + met.frames)
}

/// the same number and the same of all that a frame may change, or the
/// input whole and the first that differs.
fn held(serve: &Serve, number: u8, answered: u8, oracle: &Lent, port: &Lent) -> Result<(), String> {
    if number != answered {
        return Err(format!("{serve}\nthe number is {number}, the port answers {answered}"));
    }
    fn first<T: PartialEq>(oracle: &[T], port: &[T]) -> Option<usize> {
        (0..oracle.len()).find(|&at| oracle[at] != port[at])
    }
    if let Some(at) = first(&oracle.record, &port.record) {
        let told = [oracle, port].map(|side| format!("{:?}\n{:02X?}", voice_of(&side.record), side.record));
        let [oracle, port] = told;
        return Err(format!("{serve}\nthe records differ first in byte {at}\noracle: {oracle}\nport:   {port}"));
    }
    if let Some(at) = first(&oracle.lane, &port.lane) {
        let (oracle, port) = (oracle.lane[at], port.lane[at]);
        return Err(format!("{serve}\nthe lanes differ first at {at}: oracle {oracle}, port {port}"));
    }
    same!(oracle.configuration, port.configuration, "{serve}\nthe configurations differ");
    same!(oracle.status, port.status, "{serve}\nthe statuses differ");
    if let Some(at) = first(&oracle.mixes, &port.mixes) {
        let (oracle, port) = (oracle.mixes[at], port.mixes[at]);
        return Err(format!("{serve}\nthe mixes differ first at {at}: oracle {oracle}, port {port}"));
    }
    Ok(())
}

/// a frame alone, as the first and as the last of the voices: it must be
/// answered with this number. gives what the frame came to.
fn alone(serve: &Serve, number: u8) -> Result<Framed, String> {
    same!(number, serve.job().number(), "{serve}\nthe number by document 01");
    let mut port = serve.lent.clone();
    let answered = port::serve(serve, &mut port);
    let [first, last] = [0, 23].map(|index| serve.stage(index).frame(number, serve.lent.clone()));
    for framed in [&first, &last] {
        held(serve, number, answered, &framed.left, &port)?;
    }
    Ok(last)
}

/// records at each rule of number 7, with mixes and a status to be left, and
/// a lane one sample too long.
fn refusals() -> Result<u64, String> {
    let random = &mut Random::new(1);
    let jobs = at_seven(random);
    let count = jobs.len() as u64;
    for (job, number) in jobs {
        let Job { lane, record, configuration, coefficients } = job;
        let mut serve = Serve::of(Play { base: 0, window: Vec::new(), lane: vec![1; lane as usize], record });
        (serve.lent.configuration, serve.coefficients) = (configuration, coefficients);
        random.fill(&mut serve.lent.status);
        serve.lent.mixes.fill_with(|| random.word() as i32);
        let mut port = serve.lent.clone();
        same!(number, port::serve(&serve, &mut port), "{serve}\nthe number");
        if number != 0 {
            same!(serve.lent, port, "{serve}\nwhat a refusal leaves");
        }
    }
    for (lane, number) in [(65_536, 0), (65_537, 5)] {
        let voice = ProbeVoice { enabled: true, ..ProbeVoice::default() };
        let serve = Serve::of(Play { base: 0, window: Vec::new(), lane: vec![1; lane], record: record_of(&voice) });
        let mut port = serve.lent.clone();
        same!(number, port::serve(&serve, &mut port), "a lane of {lane}, the number");
        same!(number == 5, serve.lent == port, "a lane of {lane}, whether all was left");
    }
    Ok(count + 2)
}

const LANE: u32 = 100;
const EMBEDDED: u32 = 1 << 30;
const SLOTS: u32 = 1 << 19;
/// a voice amid its frames, with so many entries queued, over a window of
/// noise, with mixes and a status of noise.
fn amid(random: &mut Random, queued: usize) -> Serve {
    let voice = ProbeVoice {
        enabled: true,
        gain: [[0.5; 4]; 3],
        ramp: [Some([-0.25; 4]); 3],
        buffer_update: true,
        queue: vec![entry(ProbeFormat::Pcm16, 7); queued],
        playing: Some(entry(ProbeFormat::Pcm16, 400)),
        length: 400,
        remaining: 300,
        ..ProbeVoice::default()
    };
    let mut serve = Serve::of(Play::of(&voice, 0, random.bytes(800), vec![9; LANE as usize]));
    random.fill(&mut serve.lent.configuration);
    random.fill(&mut serve.lent.status);
    serve.lent.mixes.fill_with(|| random.word() as i32);
    serve
}

fn flag(serve: &mut Serve, word: u32) {
    serve.lent.configuration[..4].copy_from_slice(&word.to_le_bytes());
}

/// the format that the configuration names, and the lengths of its embedded
/// entry and of slot 2, the only one that is marked.
fn name(serve: &mut Serve, code: u8, embedded: u32, slot: u32) {
    let bytes = &mut serve.lent.configuration;
    (bytes[0xB4], bytes[0x4A]) = (code << 2 | 1, 4);
    put_dsp32(bytes, 0xB0, embedded);
    put_dsp32(bytes, 0x50 + 40, slot);
}

/// 64 queued and one more: 20; 63: served. ADPCM of the lane's length:
/// served; of one more: 21. what a reset frees is used again; 20 comes first.
fn boundaries() -> Result<u64, String> {
    const RESET: u32 = 1 << 29;
    const PARTIAL_RESET: u32 = 1 << 4;
    let random = &mut Random::new(2);
    let cases = [
        (63, EMBEDDED, 1, 5, 0),
        (64, EMBEDDED, 1, 5, 20),
        (64, EMBEDDED, 1, 0, 20),
        (64, 0, 1, 5, 0),
        (63, SLOTS, 1, 5, 0),
        (64, SLOTS, 1, 5, 20),
        (64, SLOTS, 1, 0, 0),
        (62, SLOTS | EMBEDDED, 1, 5, 0),
        (63, SLOTS | EMBEDDED, 1, 5, 20),
        (64, SLOTS | EMBEDDED | PARTIAL_RESET, 1, 5, 0),
        (64, SLOTS | EMBEDDED | RESET, 1, 5, 0),
        (0, EMBEDDED, 2, LANE, 0),
        (0, EMBEDDED, 2, LANE + 1, 21),
        (0, EMBEDDED, 1, LANE + 1, 0),
        (0, SLOTS | 1, 2, LANE, 0),
        (0, SLOTS | 1, 2, LANE + 1, 21),
        (0, SLOTS, 2, LANE + 1, 0),
        (64, EMBEDDED, 2, LANE + 1, 20),
        (63, EMBEDDED, 2, LANE + 1, 21),
        (64, EMBEDDED | PARTIAL_RESET, 2, LANE + 1, 21),
    ];
    for (queued, word, code, length, number) in cases {
        let mut serve = amid(random, queued);
        flag(&mut serve, word);
        name(&mut serve, code, length, length);
        let framed = alone(&serve, number)?;
        // what a refusal leaves is all of it; else the voice is heard, but
        // for one that was reset
        same!(number != 0, framed.left == serve.lent, "{serve}\nwhether all was left");
        let heard = number == 0 && word & RESET == 0;
        same!(heard, framed.parts.iter().any(|part| *part != 0), "{serve}\nwhether it is heard");
        if number == 0 && queued == 63 && word == EMBEDDED {
            same!(PLACES, framed.after.queue.len(), "{serve}\nentries queued");
        }
    }
    Ok(cases.len() as u64)
}

/// a voice whose frame holds this sample throughout fades in every mix from
/// one gain to another, which its configuration writes: what it adds first
/// and last, by document 01 and by hand.
fn fades() -> Result<u64, String> {
    let cases = [
        (-3e38, 3e38, 1, 0, i32::MAX),
        (-3e38, 3e38, -1, 0, i32::MIN),
        (3e38, -3e38, 1, 0, i32::MIN),
        (-3e38, 3e38, 0, 0, 0),
        (0.0, 0.5, 101, 0, 50),
        (-1.0, -0.5, 100, -100, -50),
        (2.0, 2.0, 7, 14, 14),
        (0.0, f32::INFINITY, 7, 0, 0),
        (1.0, f32::NAN, 7, 7, 0),
    ];
    for (from, to, sample, first, last) in cases {
        let voice = ProbeVoice {
            enabled: true,
            gain: [[from; 4]; 3],
            playing: Some(entry(ProbeFormat::Pcm16, 200)),
            length: 200,
            remaining: 200,
            ..ProbeVoice::default()
        };
        let mut serve = Serve::of(Play::of(&voice, 0, halves(&[sample; 200]), Vec::new()));
        flag(&mut serve, 7 << 25);
        for at in (4..0x34).step_by(4) {
            serve.lent.configuration[at..at + 4].copy_from_slice(&f32::to_bits(to).to_le_bytes());
        }
        let framed = alone(&serve, 0)?;
        for channel in framed.parts.chunks(FRAME_SAMPLES) {
            same!((first, last), (channel[0], channel[FRAME_SAMPLES - 1]), "{serve}\nfirst and last");
        }
    }
    Ok(cases.len() as u64)
}

/// statuses by hand: of a voice that plays, of one that is disabled, which
/// drops its ramps and tells its mark all the same, and of one that is
/// switched off in the frame.
fn told() -> Result<u64, String> {
    let mut voice = ProbeVoice {
        enabled: true,
        sync_count: 0x1234,
        buffer_update: true,
        gain: [[1.0; 4]; 3],
        ramp: [Some([0.0; 4]); 3],
        playing: Some(entry(ProbeFormat::Pcm16, 0x2_0000)),
        length: 0x2_0000,
        remaining: 0x2_0000 - 0x1_0203,
        current_buffer_id: 0x0506,
        last_buffer_id: 0x0708,
        position: 0x0A_0B0C,
        ..ProbeVoice::default()
    };
    let tell = |voice: &ProbeVoice, status: [u8; 12], heard: bool| {
        let mut serve = Serve::of(Play::of(voice, 0, halves(&[100; 0x1_0300]), Vec::new()));
        serve.lent.status.fill(0xEE);
        let framed = alone(&serve, 0)?;
        same!(status[..], framed.left.status, "{serve}\nthe status");
        same!([None; 3], framed.after.ramp, "{serve}\nthe ramps");
        same!(false, framed.after.buffer_update, "{serve}\nthe update mark");
        same!(heard, framed.parts.iter().any(|part| *part != 0), "{serve}\nwhether it is heard");
        Ok::<(), String>(())
    };
    tell(&voice, [1, 1, 0x34, 0x12, 1, 0, 0x03, 0x02, 0x06, 0x05, 0x08, 0x07], true)?;
    voice.enabled = false;
    tell(&voice, [0, 1, 0x34, 0x12, 0x0A, 0, 0x0C, 0x0B, 0x06, 0x05, 0x08, 0x07], false)?;
    voice.buffer_update = false;
    tell(&voice, [0, 0, 0x34, 0x12, 0x0A, 0, 0x0C, 0x0B, 0x06, 0x05, 0x08, 0x07], false)?;
    (voice.enabled, voice.remaining) = (true, 0);
    tell(&voice, [0, 1, 0x34, 0x12, 0, 0, 0, 0, 0, 0, 0x06, 0x05], false)?;
    Ok(4)
}

fn frames(seed: u64, met: &mut Met) -> Result<(), String> {
    let mut random = Random::new(seed);
    let play = Play::random(&mut random);
    let mut run = Run::new(random, play);
    for frame in 0..run.frames(FRAMES) {
        run.before();
        step(&mut run, met).map_err(|told| format!("frame {frame} of voice {}\n{told}", run.stage.index))?;
    }
    Ok(())
}

fn step(run: &mut Run, met: &mut Met) -> Result<(), String> {
    let serve = run.given();
    let number = serve.job().number();
    if ![0, 20, 21].contains(&number) {
        return Err(format!("{serve}\nthe record is malformed"));
    }
    let mut port = serve.lent.clone();
    let answered = port::serve(&serve, &mut port);
    let (before, read_before) = (run.number, run.read);
    let framed = run.frame(number, &serve);
    met.count(&Seen { serve: &serve, number, before, framed: &framed, read: run.read, read_before });
    held(&serve, number, answered, &framed.left, &port)
}
