//! frames of 24 busy voices with the mixer, to be measured: so many on the
//! source's side, or the jobs for so many on the port's.

use std::hint::black_box;
use std::io::{self, Write};

use cases::calling::{Call, KIND_MIXER, KIND_VOICES};
use cases::configuring::{record_of, voice_of};
use cases::layout::{ORDER, packed};
use cases::playing::{Play, entry};
use cases::{Mixing, VALUES};
use zakuro_core::memory::{Memory, Window};
use zakuro_core::services::dsp_voices::{
    Layout, ProbeBuffer, ProbeFilters, ProbeFormat, ProbeInterpolation, ProbePlayer, ProbeVoice, VOICES, Voices,
};

const LANE: usize = 256;
const WINDOW: usize = 65_536;
const BASE: u32 = 0x2000_0000;

/// a voice's part in a scene: PCM16 mono at rate 1, PCM16 stereo at 0.7,
/// ADPCM at 1.3 with an entry to be decoded in every frame, never the same
/// twice, the first with both filters, and a disabled one.
fn part(kind: usize, filters: &ProbeFilters, coefficients: [i16; 16]) -> ProbeVoice {
    let long = |stereo| ProbeBuffer { address: BASE, stereo, id: 1, ..entry(ProbeFormat::Pcm16, 16_384) };
    let voice = ProbeVoice {
        enabled: kind != 4,
        rate: [1.0, 0.7, 1.3, 1.0, 1.0][kind],
        interpolation: ProbeInterpolation::Linear,
        gain: [0, 1, 2].map(|mix| [0, 1, 2, 3].map(|channel| 0.1 + 0.05 * (4 * mix + channel) as f32)),
        coefficients,
        length: 16_384,
        remaining: 16_384,
        playing: Some(long(kind == 1)),
        ..ProbeVoice::default()
    };
    match kind {
        2 => ProbeVoice {
            length: 0,
            remaining: 0,
            playing: None,
            ran_out_at_frame_end: true,
            queue: (0..60)
                .map(|at| ProbeBuffer {
                    address: BASE + 256 * at,
                    length: 208,
                    format: ProbeFormat::Adpcm,
                    id: at as u16,
                    ..long(false)
                })
                .collect(),
            ..voice
        },
        3 => ProbeVoice { filters: filters.clone(), ..voice },
        _ => voice,
    }
}

/// the parts in turn.
const SCENES: [(&str, &[usize]); 6] = [
    ("calls-mixed", &[0, 1, 2, 3]),
    ("calls-pcm16", &[0]),
    ("calls-stereo", &[1]),
    ("calls-adpcm", &[2]),
    ("calls-filters", &[3]),
    ("calls-disabled", &[4]),
];

/// whether there is such a scene; `jobs-N` writes the jobs of the port for N
/// frames, `refused-N` a job of N calls that are refused with 6, the first
/// test after the records are lent, and N alone serves and mixes N on the
/// source's side.
pub fn run(what: &str, side: &str, play: &Play, filters: &ProbeFilters) -> Result<bool, String> {
    let Some((_, kinds)) = SCENES.into_iter().find(|(name, _)| *name == what) else {
        return Ok(false);
    };
    let coefficients = voice_of(&play.record).coefficients;
    let voices: Vec<ProbeVoice> =
        (0..VOICES).map(|index| part(kinds[index % kinds.len()], filters, coefficients)).collect();
    let (which, times) = side.rsplit_once('-').unwrap_or(("source", side));
    let times = times.parse().map_err(|_| format!("not a number: {times}"))?;
    let (offsets, end) = packed(ORDER, [0; 7]);
    let mut region = vec![0; end as usize];
    region[offsets[3] as usize] = 1;
    let regions = [region, vec![0; end as usize]];
    let window = play.window[..WINDOW].to_vec();
    let mut mixing = Mixing::new(offsets, regions.clone(), 0);
    (mixing.volume, mixing.switches) = ([1.0, 0.5, 0.25], [true, true, false]);
    match which {
        "source" => frames(&mixing, voices, window, times),
        _ => write(&mixing, &voices, window, times, which == "refused")?,
    }
    Ok(true)
}

fn write(mixing: &Mixing, voices: &[ProbeVoice], window: Vec<u8>, times: u32, refused: bool) -> Result<(), String> {
    let mut state = [0; 16];
    for (part, volume) in state.as_chunks_mut().0.iter_mut().zip(mixing.volume) {
        *part = volume.to_bits().to_le_bytes();
    }
    state[12..15].copy_from_slice(&mixing.switches.map(u8::from));
    let call = Call {
        kind: KIND_VOICES,
        times,
        offsets: mixing.offsets,
        base: BASE,
        which: 0,
        state,
        records: voices.iter().map(record_of).collect(),
        regions: mixing.memory.regions.clone(),
        window,
        lanes: vec![0; VOICES * LANE],
        mixes: (refused as usize..VALUES).map(|value| value as i32 * 7 - 6000).collect(),
    };
    let mix = Call { kind: KIND_MIXER, records: Vec::new(), window: Vec::new(), lanes: Vec::new(), ..call.clone() };
    let jobs = if refused { call.bytes() } else { [call.bytes(), mix.bytes()].concat() };
    io::stdout().write_all(&jobs).map_err(|error| error.to_string())
}

fn frames(mixing: &Mixing, players: Vec<ProbeVoice>, window: Vec<u8>, times: u32) {
    let mut memory = Memory { phys: Window { base: BASE, bytes: window }, regions: mixing.memory.regions.clone() };
    let [configurations, statuses, coefficients, frame_counter, ..] = mixing.offsets;
    let layout = Layout { configurations, statuses, coefficients, frame_counter };
    let mut voices = Voices::default();
    for (index, voice) in players.into_iter().enumerate() {
        voices.probe_swap(index, &mut ProbePlayer::new(voice));
    }
    let mut mixer = mixing.mixer();
    for _ in 0..times {
        let mixes = voices.tick(&mut memory, layout);
        black_box(mixer.tick(&mut memory, mixing.layout(), 0, mixes));
    }
}
