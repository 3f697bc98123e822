//! numbers as casts, roundings and products meet them.

use crate::Random;

/// sizes about which a cast, a rounding or a test turns.
const TURNS: [f64; 34] = [
    0.0,
    f64::MIN_POSITIVE,
    f32::MIN_POSITIVE as f64,
    1.0 / 159.0,
    0.5,
    1.0,
    1.5,
    2.0,
    3.0,
    16_384.0,
    32_766.0,
    32_767.0,
    32_767.5,
    32_768.0,
    32_769.0,
    65_535.0,
    65_536.0,
    8_388_608.0,
    16_777_215.0,
    16_777_216.0,
    16_777_217.0,
    16_777_218.0,
    2_147_483_647.0,
    2_147_483_648.0,
    2_147_483_649.0,
    4_294_967_295.0,
    4_294_967_295.5,
    4_294_967_296.0,
    9_007_199_254_740_992.0,
    9_223_372_036_854_775_808.0,
    3e38,
    f32::MAX as f64,
    f64::MAX,
    f64::INFINITY,
];

/// how far from a number its neighbours are taken, in units of its last bit.
const NEIGHBOURS: std::ops::RangeInclusive<i32> = -2..=2;

fn signed_turns() -> impl Iterator<Item = f64> {
    TURNS.into_iter().flat_map(|turn| [turn, -turn])
}

/// the turns, either sign, and their neighbours, some of them not a number.
pub fn singles() -> Vec<f32> {
    let about = |x: f64| NEIGHBOURS.map(move |by| (x as f32).to_bits().wrapping_add_signed(by));
    distinct(signed_turns().flat_map(about)).map(f32::from_bits).collect()
}

pub fn doubles() -> Vec<f64> {
    let about = |x: f64| NEIGHBOURS.map(move |by| x.to_bits().wrapping_add_signed(by.into()));
    distinct(signed_turns().flat_map(about)).map(f64::from_bits).collect()
}

/// whole numbers about powers of two and about the first two ties above
/// each, where their rounding to 24 bits turns.
pub fn wholes() -> Vec<i32> {
    let about = |power: i64| {
        let tie = power >> 24;
        [power, power + tie, power + 3 * tie].into_iter().flat_map(|x| x - 1..=x + 1).flat_map(|x| [x, -x])
    };
    let all = [0, 7, 15].into_iter().chain(22..32).flat_map(|bit| about(1 << bit));
    distinct(all.filter_map(|x| i32::try_from(x).ok())).collect()
}

fn distinct<T: Ord>(all: impl Iterator<Item = T>) -> impl Iterator<Item = T> {
    all.collect::<std::collections::BTreeSet<T>>().into_iter()
}

/// a number whose neighbours are worth trying.
fn about(random: &mut Random) -> f64 {
    let word = random.word();
    let whole = (random.word() >> (word & 63)) as f64;
    let size = match word >> 6 & 3 {
        0 => random.pick(&TURNS),
        1 => whole,
        2 => whole / (1u64 << (word >> 8 & 63)) as f64,
        _ => power_of_two((word >> 8) as i32 % 150),
    };
    if word >> 63 == 0 { size } else { -size }
}

fn power_of_two(exponent: i32) -> f64 {
    f64::from_bits(((1023 + exponent) as u64) << 52)
}

fn neighbour(word: u64) -> i32 {
    (word % 7) as i32 - 3
}

/// a single of any kind: half of them any bits, subnormal or not finite,
/// the others about a number worth trying.
pub fn single(random: &mut Random) -> f32 {
    let word = random.word();
    let bits = (word >> 32) as u32;
    f32::from_bits(match word & 7 {
        0 | 1 => bits,
        2 => bits & 0x807F_FFFF,
        3 => bits | 0x7F80_0000,
        _ => (about(random) as f32).to_bits().wrapping_add_signed(neighbour(word >> 3)),
    })
}

/// the same of a double, and singles widened.
pub fn double(random: &mut Random) -> f64 {
    let word = random.word();
    f64::from_bits(match word & 7 {
        0 => random.word(),
        1 => return single(random) as f64,
        2 => random.word() & 0x800F_FFFF_FFFF_FFFF,
        3 => random.word() | 0x7FF0_0000_0000_0000,
        _ => about(random).to_bits().wrapping_add_signed(neighbour(word >> 3).into()),
    })
}

pub fn whole(random: &mut Random) -> i32 {
    let word = random.word();
    word as i32 >> (word >> 59)
}

/// a gain or a volume: a third of them extreme, a third such as are heard.
pub fn gain(random: &mut Random) -> f32 {
    match random.below(3) {
        0 => random.pick(&[0.0, -0.0, 1.0, -1.0, 1e-40, 3e38, f32::INFINITY, f32::NEG_INFINITY, f32::NAN]),
        1 => random.word() as i16 as f32 / 8192.0,
        _ => single(random),
    }
}

pub fn sample(random: &mut Random) -> i16 {
    if random.below(4) == 0 { random.pick(&crate::SAMPLES) } else { random.word() as i16 }
}

/// the bits, the same for all that is not a number.
pub fn bits(x: f32) -> u32 {
    if x.is_nan() { f32::NAN.to_bits() } else { x.to_bits() }
}
