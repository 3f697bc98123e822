//! the numbers 1 to 3 of a layout, beside a second reading of document 01's
//! table. the source has no part in them.

use cases::Random;
use cases::layout::{self, LONGEST, ORDER, SIZES, number, packed};

use crate::{port, same};

pub fn compare(random: &mut Random, count: usize) -> Result<u64, String> {
    let mut compared = 0;
    let mut met = [0u64; 4];
    let mut one = |first: usize, second: usize, offsets: &[u32; 7]| {
        let oracle = number(first, second, offsets);
        same!(oracle, port::layout_number(first, second, offsets), "lengths {first}, {second}, offsets {offsets:?}");
        compared += 1;
        met[oracle as usize] += 1;
        Ok(())
    };

    let (packed, end) = packed(ORDER, [0; 7]);
    let end = end as usize;
    let lengths = [0, 1, 2, end - 1, end, end + 1, LONGEST - 1, LONGEST, LONGEST + 1, 1 << 32, usize::MAX];
    for first in lengths {
        for second in lengths {
            one(first, second, &packed)?;
        }
    }
    // each place at the region's end and past it
    for place in 0..7 {
        for length in [end, 30_000, LONGEST] {
            let last = length as u32 - SIZES[place];
            let wrapped = 0u32.wrapping_sub(SIZES[place]);
            for at in [last - 1, last, last + 1, length as u32, wrapped - 1, wrapped, wrapped + 1, u32::MAX] {
                let mut offsets = packed;
                offsets[place] = at;
                one(length, length, &offsets)?;
                one(length + 1, length, &offsets)?;
                one(length, length + 1, &offsets)?;
            }
        }
    }
    // each place about the beginning and the end of each other, the rest
    // well apart from both
    for place in 0..7 {
        for other in 0..7 {
            let mut offsets: [u32; 7] = std::array::from_fn(|i| 24_000 + packed[i]);
            offsets[other] = 10_000;
            let end = 10_000 + SIZES[other];
            for about in [10_000 - SIZES[place], 10_000, end - SIZES[place], end - 1, end] {
                for at in about - 1..=about + 1 {
                    offsets[place] = at;
                    one(LONGEST, LONGEST, &offsets)?;
                }
            }
        }
    }

    for _ in 0..count {
        let (mut offsets, end) = layout::random(random);
        let mut first = end as usize + random.pick(&[0, 0, 1, 100]);
        let mut second = first;
        match random.below(8) {
            0 => first = first.wrapping_add(random.below(3)).wrapping_sub(1),
            1 => second = LONGEST,
            2 => (first, second) = (first - 1, second - 1),
            3 => (first, second) = (LONGEST + random.below(3) - 1, LONGEST + random.below(3) - 1),
            4 => offsets[random.below(7)] = random.below(first) as u32,
            5 => offsets[random.below(7)] = random.word() as u32,
            6 => {
                let place = random.below(7);
                offsets[place] = offsets[place].wrapping_add(random.below(3) as u32).wrapping_sub(1);
            }
            _ => {}
        }
        one(first, second, &offsets)?;
    }
    if met.contains(&0) {
        return Err(format!("a number was never met: {met:?}"));
    }
    Ok(compared)
}
