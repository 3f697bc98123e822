//! the decoder, the mixer, the configuration reader, playing or a voice's
//! whole frame, of the source or of the port alone, on the same input.

use std::hint::black_box;
use std::time::{Duration, Instant};

use cases::configuring::{FLAGS, Job, record_of, voice_of};
use cases::playing::{Play, entry};
use cases::serving::Serve;
use cases::{Decode, Mixing, Random};
use zakuro_core::services::dsp_voices::{
    FRAME_SAMPLES, ProbeBiquad, ProbeBuffer, ProbeFilters, ProbeFormat, ProbeInterpolation, ProbeSimple, ProbeVoice,
    probe_decode,
};

use crate::{busy, port};

/// prints how many samples were decoded or frames mixed, played or served,
/// and how many nanoseconds it took. the side `record` is what the port's
/// playing or serving does besides: reading the record from bytes and writing
/// it.
pub fn run(what: &str, side: &str) -> Result<(), String> {
    if let Some((_, play)) = plays().into_iter().find(|(name, _)| *name == what) {
        let (many, time) = play_frames(&play, side)?;
        println!("{many} {}", time.as_nanos());
        return Ok(());
    }
    let [(_, play), ..] = plays();
    if busy::run(what, side, &play, &filters())? {
        return Ok(());
    }
    if let Some((_, serve)) = voices().into_iter().find(|(name, _)| *name == what) {
        let (many, time) = serve_frames(&serve, side)?;
        println!("{many} {}", time.as_nanos());
        return Ok(());
    }
    let port = match side {
        "source" => false,
        "port" => true,
        _ => return Err(format!("neither source nor port: {side}")),
    };
    let (many, time) = match what {
        "decode" => decode(port),
        "mix" => mix(port, [1.0, 0.5, 0.25], true),
        "mix-no-aux" => mix(port, [1.0, 0.0, 0.0], false),
        "configure-nothing" => configure(port, 0),
        "configure-all" => configure(port, FLAGS.iter().map(|bit| 1 << bit).sum()),
        "record" => record(),
        _ => return Err(format!("not measured: {what}")),
    };
    println!("{many} {}", time.as_nanos());
    Ok(())
}

fn decode(port: bool) -> (usize, Duration) {
    const COUNT: usize = 65_536;
    const TIMES: usize = 100;
    let mut random = Random::new(1);
    let data = Decode::random(&mut random, COUNT).data;
    // as an encoder makes them
    let coefficients = std::array::from_fn(|_| (random.below(4096) as i32 - 2048) as i16);
    let mut history = [0; 2];
    let mut samples = vec![0; COUNT];
    let start = Instant::now();
    for _ in 0..TIMES {
        if port {
            assert_eq!(port::decode_adpcm(&data, COUNT, &coefficients, &mut history, &mut samples), 0);
        } else {
            probe_decode(&data, COUNT, &coefficients, &mut history, &mut samples);
        }
        black_box(&samples);
    }
    (COUNT * TIMES, start.elapsed())
}

/// stereo, nothing new in the configuration, values of 16 bits. the source
/// takes the mixes by value: that copy is in its time, not its instructions.
fn mix(port: bool, volume: [f32; 3], aux: bool) -> (usize, Duration) {
    const TIMES: usize = 5000;
    let mut random = Random::new(1);
    let mut case = Mixing::packed(0, 0);
    case.volume = volume;
    case.switches = [aux, aux, false];
    let mut value = || random.word() as i16 as i32;
    case.mixes.as_flattened_mut().as_flattened_mut().fill_with(&mut value);
    for word in case.intermediate().as_chunks_mut().0 {
        *word = value().to_le_bytes();
    }
    let (mut mixer, mut memory, mut mixed) = (case.mixer(), case.memory.clone(), case.refused());
    let start = Instant::now();
    for _ in 0..TIMES {
        if port {
            let mixes = case.mixes.as_flattened().as_flattened();
            assert_eq!(port::mixer_tick(&case.offsets, case.read, mixes, &mut mixed), 0);
            black_box(&mixed);
        } else {
            black_box(mixer.probe_tick(&mut memory, case.layout(), case.read, case.mixes));
        }
    }
    (TIMES, start.elapsed())
}

/// a configuration with this dirty word, PCM16 entries of length 1 in every
/// slot, over the default record. the port's side takes the record in bytes
/// and writes it back: `record` is that alone.
fn configure(port: bool, word: u32) -> (usize, Duration) {
    let job = configuration(word);
    let (mut voice, mut memory) = job.oracle();
    let configured = memory.regions[0].clone();
    let start = Instant::now();
    for _ in 0..CONFIGURED {
        if port {
            let (mut record, mut configuration) = (job.record.clone(), job.configuration.clone());
            assert_eq!(port::configure(job.lane, &mut record, &mut configuration, &job.coefficients), 0);
            black_box((record, configuration));
        } else {
            memory.regions[0].copy_from_slice(&configured);
            Job::parse(&mut voice, &mut memory);
            black_box(&voice);
        }
    }
    (CONFIGURED, start.elapsed())
}

fn record() -> (usize, Duration) {
    let job = configuration(0);
    let start = Instant::now();
    for _ in 0..CONFIGURED {
        let mut record = job.record.clone();
        assert_eq!(port::record(job.lane, &mut record), 0);
        black_box(record);
    }
    (CONFIGURED, start.elapsed())
}

const CONFIGURED: usize = 5000;

fn configuration(word: u32) -> Job {
    let mut job = Job::plain(&mut Random::new(1), 100);
    job.format(1);
    job.embedded(1);
    job.slots(0xF, [1; 4]);
    job.flag(word);
    job
}

/// a busy voice in each way of playing, in one frame of which it ends no
/// entry: `decoding` begins one with the frame.
fn plays() -> [(&'static str, Play); 5] {
    const WINDOW: usize = 65_536;
    const LONG: u32 = 16_384;
    let mut random = Random::new(1);
    let window = random.bytes(WINDOW);
    let lane = vec![0; LONG as usize];
    let coefficients = std::array::from_fn(|_| (random.below(4096) as i32 - 2048) as i16);
    let voice = |format, stereo, rate, at: u32| {
        let entry = ProbeBuffer { address: 0x2000_0000 + at, stereo, id: 1, ..entry(format, LONG) };
        ProbeVoice {
            enabled: true,
            rate,
            interpolation: ProbeInterpolation::Linear,
            coefficients,
            length: LONG,
            remaining: LONG,
            playing: Some(entry),
            ..ProbeVoice::default()
        }
    };
    let mono = voice(ProbeFormat::Pcm16, false, 1.0, 0);
    let stereo = voice(ProbeFormat::Pcm16, true, 0.7, 0);
    let mut adpcm = voice(ProbeFormat::Adpcm, false, 1.3, 0);
    adpcm.decoded = (0..LONG).map(|_| random.word() as i16).collect();
    // an entry of one frame, followed on to
    let mut decoding = voice(ProbeFormat::Adpcm, false, 1.3, 0);
    decoding.queue.extend(decoding.playing.take().map(|entry| ProbeBuffer { length: 210, ..entry }));
    (decoding.remaining, decoding.ran_out_at_frame_end) = (0, true);
    // the last half of the entry is outside
    let absent = voice(ProbeFormat::Pcm16, false, 1.0, WINDOW as u32 - LONG);
    [
        ("play-mono", mono),
        ("play-stereo", stereo),
        ("play-adpcm", adpcm),
        ("play-decoding", decoding),
        ("play-partly-absent", absent),
    ]
    .map(|(name, voice)| (name, Play::of(&voice, 0x2000_0000, window.clone(), lane.clone())))
}

fn play_frames(play: &Play, side: &str) -> Result<(usize, Duration), String> {
    const TIMES: usize = 2000;
    let (player, mut memory) = play.oracle();
    let (mut record, mut lane) = (play.record.clone(), play.lane.clone());
    let mut time = Duration::ZERO;
    for _ in 0..TIMES {
        let mut player = player.clone();
        record.copy_from_slice(&play.record);
        let start = Instant::now();
        match side {
            "source" => player.probe_play_frame(&mut memory),
            "port" => assert_eq!(port::play(&mut record, &play.window, play.base, &mut lane), 0),
            "record" => assert_eq!(port::record(lane.len() as u32, &mut record), 0),
            _ => return Err(format!("neither source nor port: {side}")),
        }
        time += start.elapsed();
        black_box((&player, &record));
    }
    Ok((TIMES, time))
}

/// whole frames of such voices, heard in every channel of every mix, with
/// nothing new in their configurations.
fn voices() -> [(&'static str, Serve); 6] {
    let [mono, stereo, adpcm, ..] = plays().map(|(_, play)| play);
    let serve = |play: &Play, change: fn(&mut ProbeVoice)| {
        let mut voice = voice_of(&play.record);
        voice.gain = [0, 1, 2].map(|mix| [0, 1, 2, 3].map(|channel| 0.1 + 0.05 * (4 * mix + channel) as f32));
        change(&mut voice);
        Serve::of(Play { record: record_of(&voice), ..play.clone() })
    };
    [
        ("voice-mono", serve(&mono, |_| {})),
        ("voice-stereo", serve(&stereo, |_| {})),
        ("voice-adpcm", serve(&adpcm, |_| {})),
        ("voice-filters", serve(&mono, |voice| voice.filters = filters())),
        ("voice-fading", serve(&mono, |voice| voice.ramp = [Some([1.0; 4]); 3])),
        ("voice-disabled", serve(&mono, |voice| voice.enabled = false)),
    ]
}

fn filters() -> ProbeFilters {
    let simple = ProbeSimple { b0: 20_000, a1: 5_000, y1: [0; 2] };
    let biquad = ProbeBiquad { b: [8_000, 4_000, 2_000], a: [3_000, -1_000], x: [[0; 2]; 2], y: [[0; 2]; 2] };
    ProbeFilters { simple: Some(simple), biquad: Some(biquad) }
}

fn serve_frames(serve: &Serve, side: &str) -> Result<(usize, Duration), String> {
    const TIMES: usize = 2000;
    let mut stage = serve.stage(0);
    let (addresses, player) = (stage.addresses(), stage.player.clone());
    let mut lent = serve.lent.clone();
    let mut mixes = [[[0; FRAME_SAMPLES]; 4]; 3];
    let mut time = Duration::ZERO;
    for _ in 0..TIMES {
        let mut player = player.clone();
        lent.record.copy_from_slice(&serve.lent.record);
        lent.mixes.fill(0);
        mixes.as_flattened_mut().as_flattened_mut().fill(0);
        let start = Instant::now();
        match side {
            "source" => player.probe_serve(&mut stage.memory, addresses, &mut mixes),
            "port" => assert_eq!(port::serve(serve, &mut lent), 0),
            "record" => assert_eq!(port::reread(lent.lane.len(), &mut lent.record), 0),
            _ => return Err(format!("neither source nor port: {side}")),
        }
        time += start.elapsed();
        black_box((&player, &lent, &mixes));
    }
    Ok((TIMES, time))
}
