//! the port's exported functions. every slice is declared flat, as a pointer
//! and a count; each wrapper tests what its function requires. those on
//! numbers alone go by the kinds of the crate number_jobs.

use cases::configuring::{COEFFICIENTS, CONFIGURATION, RECORD};
use cases::listing::{INPUT_ROOM, OUTPUT_ROOM};
use cases::serving::{Lent, STATUS, Serve};
use cases::{Mixed, VALUES};

unsafe extern "C" {
    safe fn yinzhor_number(kind: u32, a: u64, b: u64, c: u64) -> u64;
    fn yinzhor_read_dsp32(bytes: *const u8, len: usize, at: usize) -> u32;
    fn yinzhor_write_dsp32(bytes: *mut u8, len: usize, at: usize, value: u32);
    fn yinzhor_layout_number(first: usize, second: usize, offsets: *const u8, len: usize) -> u8;
    fn yinzhor_present(window: *const u8, len: usize, base: u32, address: u32, count: u32) -> bool;
    fn yinzhor_physical(
        window: *const u8,
        len: usize,
        base: u32,
        address: u32,
        count: u32,
        out: *mut u8,
        out_len: usize,
    ) -> usize;
    fn yinzhor_decode_adpcm(
        data: *const u8,
        data_len: usize,
        count: usize,
        coefficients: *const i16,
        history: *mut i16,
        history_len: usize,
        samples: *mut i16,
        samples_len: usize,
    ) -> u8;
    fn yinzhor_listing(input: *const u8, input_len: usize, output: *mut u8) -> usize;
    fn yinzhor_list_read(buffer: *const u8, buffer_len: usize, got: usize, output: *mut u8) -> usize;

    fn yinzhor_filter(count: usize, record: *mut u8) -> bool;
    fn yinzhor_record(lane: usize, record: *mut u8) -> u8;
    fn yinzhor_configure(
        lane: usize,
        record: *mut u8,
        configuration: *mut u8,
        configuration_len: usize,
        coefficients: *const u8,
        coefficients_len: usize,
    ) -> u8;
    fn yinzhor_play(
        record: *mut u8,
        window: *const u8,
        window_len: usize,
        base: u32,
        lane: *mut i16,
        lane_len: usize,
    ) -> u8;
    fn yinzhor_reread(lane: usize, record: *mut u8) -> u8;
    fn yinzhor_serve(
        record: *mut u8,
        lane: *mut i16,
        lane_len: usize,
        configuration: *mut u8,
        configuration_len: usize,
        coefficients: *const u8,
        coefficients_len: usize,
        window: *const u8,
        window_len: usize,
        base: u32,
        mixes: *mut i32,
        mixes_len: usize,
        status: *mut u8,
        status_len: usize,
    ) -> u8;

    fn yinzhor_mixer_tick(
        first: *mut u8,
        first_len: usize,
        second: *mut u8,
        second_len: usize,
        offsets: *const u8,
        offsets_len: usize,
        read: u32,
        mixes: *const i32,
        mixes_len: usize,
        state: *mut u8,
        state_len: usize,
        frame: *mut u8,
        frame_len: usize,
    ) -> u8;
}

pub fn current_region(first: u16, second: u16) -> u32 {
    yinzhor_number(0, first.into(), second.into(), 0) as u32
}

pub fn read_dsp32(bytes: &[u8], at: usize) -> u32 {
    assert!(at + 4 <= bytes.len());
    unsafe { yinzhor_read_dsp32(bytes.as_ptr(), bytes.len(), at) }
}

pub fn write_dsp32(bytes: &mut [u8], at: usize, value: u32) {
    assert!(at + 4 <= bytes.len());
    unsafe { yinzhor_write_dsp32(bytes.as_mut_ptr(), bytes.len(), at, value) }
}

/// the offsets of configurations, statuses, coefficients, frame counter,
/// mixer configuration, final samples and intermediate samples.
pub fn layout_number(first: usize, second: usize, offsets: &[u32; 7]) -> u8 {
    let offsets = words(offsets);
    unsafe { yinzhor_layout_number(first, second, offsets.as_ptr(), offsets.len()) }
}

fn words(offsets: &[u32; 7]) -> Vec<u8> {
    offsets.iter().flat_map(|word| word.to_le_bytes()).collect()
}

pub fn window_number(base: u32, length: usize) -> u8 {
    yinzhor_number(3, base.into(), length as u64, 0) as u8
}

pub fn present(window: &[u8], base: u32, address: u32, count: u32) -> bool {
    assert!(base as u64 + window.len() as u64 <= 1 << 32);
    unsafe { yinzhor_present(window.as_ptr(), window.len(), base, address, count) }
}

/// the part that the look-up hands back, copied; no longer than the window.
pub fn physical(window: &[u8], base: u32, address: u32, count: u32) -> Vec<u8> {
    assert!(base as u64 + window.len() as u64 <= 1 << 32);
    let mut out = vec![0; window.len()];
    let length =
        unsafe { yinzhor_physical(window.as_ptr(), window.len(), base, address, count, out.as_mut_ptr(), out.len()) };
    assert!(length <= out.len(), "a part longer than the window");
    out.truncate(length);
    out
}

pub fn decode_adpcm(
    data: &[u8],
    count: usize,
    coefficients: &[i16; 16],
    history: &mut [i16; 2],
    samples: &mut [i16],
) -> u8 {
    unsafe {
        yinzhor_decode_adpcm(
            data.as_ptr(),
            data.len(),
            count,
            coefficients.as_ptr(),
            history.as_mut_ptr(),
            history.len(),
            samples.as_mut_ptr(),
            samples.len(),
        )
    }
}

pub fn listing(input: &[u8], output: &mut [u8]) -> usize {
    assert!(output.len() == OUTPUT_ROOM);
    unsafe { yinzhor_listing(input.as_ptr(), input.len(), output.as_mut_ptr()) }
}

pub fn list_read(buffer: &[u8], got: usize, output: &mut [u8]) -> usize {
    assert!(buffer.len() == INPUT_ROOM && got <= INPUT_ROOM && output.len() == OUTPUT_ROOM);
    unsafe { yinzhor_list_read(buffer.as_ptr(), buffer.len(), got, output.as_mut_ptr()) }
}

pub fn cast_i32(x: f32) -> i32 {
    yinzhor_number(4, x.to_bits().into(), 0, 0) as i32
}

pub fn cast_i16(x: f64) -> i16 {
    yinzhor_number(5, x.to_bits(), 0, 0) as i16
}

pub fn cast_u32(x: f64) -> u32 {
    yinzhor_number(6, x.to_bits(), 0, 0) as u32
}

pub fn single_of_i32(n: i32) -> f32 {
    f32::from_bits(yinzhor_number(7, n as u32 as u64, 0, 0) as u32)
}

pub fn gain_of(bits: u32) -> f32 {
    f32::from_bits(yinzhor_number(8, bits.into(), 0, 0) as u32)
}

pub fn rate_of(bits: u32) -> f64 {
    f64::from_bits(yinzhor_number(9, bits.into(), 0, 0))
}

pub fn is_finite(x: f32) -> bool {
    yinzhor_number(10, x.to_bits().into(), 0, 0) != 0
}

pub fn is_rate(x: f64) -> bool {
    yinzhor_number(11, x.to_bits(), 0, 0) != 0
}

pub fn is_fraction(x: f64) -> bool {
    yinzhor_number(12, x.to_bits(), 0, 0) != 0
}

pub fn at_gain(gain: f32, sample: i16) -> i32 {
    yinzhor_number(13, gain.to_bits().into(), sample as u16 as u64, 0) as i32
}

pub fn fading(from: f32, to: f32, i: usize, sample: i16) -> i32 {
    assert!(i < 160);
    yinzhor_number(14, from.to_bits().into(), to.to_bits().into(), (i as u64) << 16 | sample as u16 as u64) as i32
}

pub fn interpolate(a: i16, b: i16, fraction: f64) -> i16 {
    yinzhor_number(15, a as u16 as u64, b as u16 as u64, fraction.to_bits()) as i16
}

/// mixes in place: state and regions are taken from `mixed` and left there,
/// and the frame with them.
pub fn mixer_tick(offsets: &[u32; 7], read: u32, mixes: &[i32], mixed: &mut Mixed) -> u8 {
    let Mixed { volume, switches, frame, regions: [first, second] } = mixed;
    let offsets = words(offsets);
    let mut state = [0; 16];
    for (part, volume) in state.as_chunks_mut().0.iter_mut().zip(&*volume) {
        *part = volume.to_bits().to_le_bytes();
    }
    state[12..15].copy_from_slice(switches);
    let number = unsafe {
        yinzhor_mixer_tick(
            first.as_mut_ptr(),
            first.len(),
            second.as_mut_ptr(),
            second.len(),
            offsets.as_ptr(),
            offsets.len(),
            read,
            mixes.as_ptr(),
            mixes.len(),
            state.as_mut_ptr(),
            state.len(),
            frame.as_mut_ptr().cast(),
            size_of_val(frame),
        )
    };
    *volume = std::array::from_fn(|i| f32::from_bits(u32::from_le_bytes(state.as_chunks().0[i])));
    switches.copy_from_slice(&state[12..15]);
    number
}

/// puts so many pairs of a record's frame through its filters, and says
/// whether these are in range.
pub fn filter(count: usize, record: &mut [u8]) -> bool {
    assert!(count <= 160 && record.len() == RECORD);
    unsafe { yinzhor_filter(count, record.as_mut_ptr()) }
}

/// serves a voice's configuration, its record in bytes, with a lane of so
/// many samples.
pub fn configure(lane: u32, record: &mut [u8], configuration: &mut [u8], coefficients: &[u8]) -> u8 {
    assert_eq!((record.len(), configuration.len(), coefficients.len()), (RECORD, CONFIGURATION, COEFFICIENTS));
    unsafe {
        yinzhor_configure(
            lane as usize,
            record.as_mut_ptr(),
            configuration.as_mut_ptr(),
            configuration.len(),
            coefficients.as_ptr(),
            coefficients.len(),
        )
    }
}

/// what `configure` does besides configuring.
pub fn record(lane: u32, record: &mut [u8]) -> u8 {
    assert_eq!(record.len(), RECORD);
    unsafe { yinzhor_record(lane as usize, record.as_mut_ptr()) }
}

/// plays one frame of a voice, its record in bytes.
pub fn play(record: &mut [u8], window: &[u8], base: u32, lane: &mut [i16]) -> u8 {
    assert_eq!(record.len(), RECORD);
    unsafe { yinzhor_play(record.as_mut_ptr(), window.as_ptr(), window.len(), base, lane.as_mut_ptr(), lane.len()) }
}

/// serves one voice's frame over what it is given, its record in bytes.
pub fn serve(given: &Serve, lent: &mut Lent) -> u8 {
    let Lent { record, lane, configuration, status, mixes } = lent;
    let Serve { base, window, coefficients, .. } = given;
    assert_eq!((record.len(), configuration.len(), coefficients.len()), (RECORD, CONFIGURATION, COEFFICIENTS));
    assert_eq!((status.len(), mixes.len()), (STATUS, VALUES));
    unsafe {
        yinzhor_serve(
            record.as_mut_ptr(),
            lane.as_mut_ptr(),
            lane.len(),
            configuration.as_mut_ptr(),
            configuration.len(),
            coefficients.as_ptr(),
            coefficients.len(),
            window.as_ptr(),
            window.len(),
            *base,
            mixes.as_mut_ptr(),
            mixes.len(),
            status.as_mut_ptr(),
            status.len(),
        )
    }
}

/// what `serve` does besides serving.
pub fn reread(lane: usize, record: &mut [u8]) -> u8 {
    assert_eq!(record.len(), RECORD);
    unsafe { yinzhor_reread(lane, record.as_mut_ptr()) }
}
