//! the places of a region.

use crate::Random;

/// configurations, statuses, coefficients, frame counter, mixer
/// configuration, final samples, intermediate samples.
pub const SIZES: [u32; 7] = [4608, 288, 768, 2, 44, 640, 5120];

/// bytes of the longest region.
pub const LONGEST: usize = 65_536;

/// document 01's order.
pub const ORDER: [usize; 7] = [0, 1, 2, 3, 4, 5, 6];

/// places one after the other in an order, each after its gap, and where
/// they end.
pub fn packed(order: [usize; 7], gaps: [u32; 7]) -> ([u32; 7], u32) {
    let mut offsets = [0; 7];
    let mut end = 0;
    for (place, gap) in order.into_iter().zip(gaps) {
        offsets[place] = end + gap;
        end += gap + SIZES[place];
    }
    (offsets, end)
}

/// places in any order, with few and small gaps, so that they touch, and
/// where they end.
pub fn random(random: &mut Random) -> ([u32; 7], u32) {
    let mut order = ORDER;
    for i in 1..7 {
        order.swap(i, random.below(i + 1));
    }
    packed(order, std::array::from_fn(|_| random.pick(&[0, 0, 0, 1, 2, 100, 5000])))
}

/// the lowest of the numbers 1 to 3 that applies by document 01's table, or 0.
pub fn number(first: usize, second: usize, offsets: &[u32; 7]) -> u8 {
    if first != second || first > LONGEST {
        return 1;
    }
    let mut places: Vec<(u64, u64)> =
        offsets.iter().zip(SIZES).map(|(&at, size)| (at as u64, at as u64 + size as u64)).collect();
    places.sort();
    if places.iter().any(|&(_, end)| end > first as u64) {
        return 2;
    }
    // no place is empty, so the first two to meet are neighbours
    if places.windows(2).any(|two| two[0].1 > two[1].0) {
        return 3;
    }
    0
}
