//! document 01's cases by hand, on the oracle itself: the stand-ins and the
//! probes do what they are for.

use cases::Mixing;
use zakuro_core::memory::{Memory, Window};
use zakuro_core::services::dsp_voices::*;
use zakuro_cpu::Bus;

fn memory() -> Memory {
    Memory { regions: [vec![0; 65_536], vec![0; 65_536]], ..Memory::default() }
}

#[test]
fn region() {
    let cases = [(1, 1, 1), (2, 1, 0), (0xFFFF, 0xFFFE, 0), (0xFFFF, 0, 1), (0, 0xFFFF, 0), (0xFFFE, 0xFFFF, 1)];
    let layout = Layout { configurations: 0, statuses: 0, coefficients: 0, frame_counter: 65_534 };
    let mut memory = memory();
    for (first, second, chosen) in cases {
        memory.write16(65_534, first);
        memory.write16(REGION_STRIDE + 65_534, second);
        assert_eq!(current_region(&mut memory, layout), chosen);
    }
}

#[test]
fn dsp32() {
    let mut memory = memory();
    memory.write_bytes(REGION_STRIDE, &[0x01, 0x00, 0x45, 0x23]);
    assert_eq!(probe_read_dsp32(&mut memory, REGION_STRIDE), 74565);
    probe_write_dsp32(&mut memory, 4, 74565);
    assert_eq!(memory.regions[0][..9], [0, 0, 0, 0, 0x01, 0x00, 0x45, 0x23, 0]);
}

#[test]
fn window() {
    let phys = Window { base: 0xFFFF_FFFC, bytes: vec![1, 2, 3, 4] };
    let mut memory = Memory { phys, ..memory() };
    assert_eq!(memory.physical(0xFFFF_FFFD, 3), Some(&[2, 3, 4][..]));
    assert_eq!(memory.physical(0xFFFF_FFFD, 4), None);
    assert_eq!(memory.physical(0xFFFF_FFFB, 1), None);
    assert_eq!(memory.physical(0, 0), Some(&[][..]));
}

#[test]
fn decode() {
    let decode = |frame: [u8; 8], count, coefficient, mut history| {
        let mut samples = Vec::new();
        probe_decode(&frame, count, &[coefficient; 16], &mut history, &mut samples);
        (samples, history)
    };
    assert_eq!(decode([0, 0x1F, 0x70, 0, 0, 0, 0, 0], 3, 0, [0; 2]), (vec![1, -1, 7], [7, -1]));
    assert_eq!(decode([0x0F, 0x80, 0, 0, 0, 0, 0, 0], 1, 0, [0; 2]), (vec![-32768], [-32768, 0]));
}

/// bit 7 of a header is ignored: the predictor is pair 0, not a pair 8.
#[test]
fn decode_header_bit_7() {
    let mut coefficients = [0; 16];
    coefficients[0] = 2048;
    let (mut history, mut samples) = ([100, 0], Vec::new());
    probe_decode(&[0x80, 0, 0, 0, 0, 0, 0, 0], 1, &coefficients, &mut history, &mut samples);
    assert_eq!((samples, history), (vec![100], [100, 100]));
}

/// the sum wraps, which only a build without overflow checks lets it.
#[test]
#[cfg(not(debug_assertions))]
fn decode_wrapped() {
    let (mut history, mut samples) = ([-32768; 2], Vec::new());
    probe_decode(&[0; 8], 1, &[-32768; 16], &mut history, &mut samples);
    assert_eq!(samples, [-32768]);
}

/// the listing that document 01 prints, of the input that the program
/// decode_listing is run on.
#[test]
fn listing() {
    let input = include_bytes!("../../../crates/decode_listing/stdin");
    let output = include_bytes!("../../../crates/decode_listing/stdout");
    assert_eq!(cases::listing::listed(input), output);
    assert_eq!(cases::listing::listed(&input[1..]), b"       9\n");
}

#[test]
fn interpolation() {
    assert_eq!(probe_lerp([0; 2], [-3, 100], 0.5), [-1, 50]);
    assert_eq!(probe_lerp([0; 2], [-3, 100], 1.5), [-4, 150]);
    assert_eq!(16_777_217 as f32, 16_777_216.0);
}

#[test]
fn products() {
    assert_eq!(probe_add(&[-3; FRAME_SAMPLES], 0.5), [-1; FRAME_SAMPLES]);
    assert_eq!(probe_fade(&[0; FRAME_SAMPLES], -3e38, 3e38), [0; FRAME_SAMPLES]);
    let faded = probe_fade(&[1; FRAME_SAMPLES], -3e38, 3e38);
    assert_eq!((faded[0], faded[159]), (0, 2_147_483_647));
}

#[test]
fn gain_and_rate() {
    let mut memory = memory();
    let mut of = |x: f32| probe_gain_and_rate(&mut memory, x.to_bits());
    assert_eq!(of(0.5), (0.5, 0.5));
    assert_eq!(of(-2.0), (-2.0, 1.0));
    assert_eq!(of(f32::INFINITY), (0.0, 1.0));
    assert_eq!(of(f32::NAN), (0.0, 1.0));
}

#[test]
fn mixer() {
    for (case, left) in Mixing::by_hand() {
        let mixed = case.tick();
        assert_eq!(mixed.frame.as_chunks().0, [[left, 0]; FRAME_SAMPLES]);
        let [.., configuration, samples, _] = case.offsets.map(|offset| offset as usize);
        let mut written = case.memory.regions[1].clone();
        for (bytes, value) in written[samples..samples + 640].chunks_mut(2).zip(mixed.frame) {
            bytes.copy_from_slice(&value.to_le_bytes());
        }
        assert_eq!(mixed.regions, [case.memory.regions[0].clone(), written]);
        assert_eq!(mixed.regions[0][configuration..configuration + 16], [0; 16]);
    }
}

/// what the title made comes back, and the new mix goes out.
#[test]
fn mixer_aux() {
    let mut case = Mixing::packed(0, 1);
    case.configure(1 << 9 | 1 << 25, [0, 0, 2f32.to_bits()], [0, 0x0100, 0]);
    case.intermediate()[2560..2564].copy_from_slice(&[5, 0, 0, 0]);
    case.mixes[2][3] = [-2; FRAME_SAMPLES];
    let mixed = case.tick();
    assert_eq!(mixed.frame[..4], [10, 0, 0, 0]);
    assert_eq!((mixed.volume, mixed.switches), ([0.0, 0.0, 2.0], [0, 1, 0]));
    let intermediate = case.offsets[6] as usize;
    assert_eq!(mixed.regions[0][intermediate + 2560 + 1920..][..4], [0xFE, 0xFF, 0xFF, 0xFF]);
}

#[test]
fn voice() {
    let mut memory = memory();
    let mut voice = ProbeVoice { coefficients: [7; 16], enabled: true, ..ProbeVoice::default() };
    let before = voice.clone();
    probe_parse_config(&mut voice, &mut memory, 0, 0);
    assert_eq!(voice, before);

    // reset, both filters and an embedded ADPCM entry
    memory.write32(0, 1 << 29 | 1 << 22 | 1 << 30);
    memory.write16(0x3A, 3);
    memory.write16(0xB2, 5);
    memory.write16(0xB4, 2 << 2);
    memory.write16(0xBC, 1);
    memory.write16(0xB8, 0xFFFF);
    probe_parse_config(&mut voice, &mut memory, 0, 0);
    let simple = ProbeSimple { b0: 1 << 15, a1: 0, y1: [0; 2] };
    let biquad = ProbeBiquad { b: [1 << 14, 0, 0], a: [0; 2], x: [[0; 2]; 2], y: [[0; 2]; 2] };
    let filters = ProbeFilters { simple: Some(simple), biquad: Some(biquad) };
    let entry = ProbeBuffer {
        address: 0,
        length: 5,
        format: ProbeFormat::Adpcm,
        stereo: false,
        looping: false,
        id: 0,
        adpcm: Some([-1, 0]),
        from_queue: false,
        play_position: 0,
        has_played: false,
    };
    let after = ProbeVoice { filters, format: ProbeFormat::Adpcm, queue: vec![entry], ..ProbeVoice::default() };
    assert_eq!(voice, after);
}

#[test]
fn filters() {
    let simple = Some(ProbeSimple { b0: 1 << 14, a1: 0, y1: [0; 2] });
    let mut filters = ProbeFilters { simple, biquad: None };
    let mut samples = [[-3, 8], [100, -100]];
    probe_filters(&mut filters, &mut samples);
    assert_eq!(samples, [[-2, 4], [50, -50]]);
    assert_eq!(filters.simple.unwrap().y1, [50, -50]);
}
