//! frames of the mixer: state, frame and both regions whole; and its numbers,
//! whose oracle is document 01's table.

use cases::floats::bits;
use cases::layout::{LONGEST, ORDER, SIZES, packed};
use cases::{Mixed, Mixing, Random, VALUES};

use crate::{port, same};

pub fn compare(random: &mut Random, count: usize) -> Result<u64, String> {
    let by_hand = Mixing::by_hand();
    for (case, _) in &by_hand {
        one(case, VALUES)?;
    }
    let refusals = refusals(random)?;
    for _ in 0..count {
        one(&Mixing::random(random), VALUES)?;
    }
    Ok((by_hand.len() + refusals + count) as u64)
}

/// every number at its boundary and beside it, with each of the others
/// applying or not.
fn refusals(random: &mut Random) -> Result<usize, String> {
    let mut met = [0; 9];
    let (packed, end) = packed(ORDER, [0; 7]);
    let end = end as usize;
    let lengths = [
        [end, end],
        [end + 9, end + 9],
        [end, end + 1],
        [end + 1, end],
        [0, 0],
        [LONGEST, LONGEST],
        [LONGEST, LONGEST + 1],
        [LONGEST + 1, LONGEST + 1],
    ];
    for [first, second] in lengths {
        // the intermediate samples end with the region, past it or far away
        let last = (first.min(second) as u32).wrapping_sub(SIZES[6]);
        for intermediate in [last, last.wrapping_add(1), 0u32.wrapping_sub(SIZES[6]), u32::MAX] {
            // the frame counter has a place on either side, without a gap
            for moved in [0, -1, 1] {
                for values in [VALUES, VALUES - 1, VALUES + 1, 0] {
                    for read in [0, 1, 2, 256, u32::MAX] {
                        let mut case = Mixing::random(random);
                        case.read = read;
                        case.offsets = packed;
                        case.offsets[3] = packed[3].wrapping_add_signed(moved);
                        case.offsets[6] = intermediate;
                        case.memory.regions[0].resize(first, 0xA5);
                        case.memory.regions[1].resize(second, 0xA5);
                        met[one(&case, values)? as usize] += 1;
                    }
                }
            }
        }
    }
    if [0, 1, 2, 3, 6, 8].iter().any(|&number| met[number] == 0) {
        return Err(format!("a number was never met: {met:?}"));
    }
    Ok(met.iter().sum())
}

/// holds one call with so many values for mixes, and gives its number.
fn one(case: &Mixing, values: usize) -> Result<u8, String> {
    let number = case.number(values);
    let oracle = if number == 0 { case.tick() } else { case.refused() };
    // the frame is written whole, whatever it held
    let mut port = Mixed { frame: [0x5A5A; 320], ..case.refused() };
    let mut mixes = case.mixes.as_flattened().as_flattened().to_vec();
    mixes.resize(values, 1);
    let answer = port::mixer_tick(&case.offsets, case.read, &mixes, &mut port);

    let input = || format!("{case}{values} values for mixes");
    same!(number, answer, "{}\nthe number", input());
    same!(oracle.volume.map(bits), port.volume.map(bits), "{}\nthe volumes' bits", input());
    same!(oracle.switches, port.switches, "{}\naux 0, aux 1, mono", input());
    same!(oracle.frame, port.frame, "{}\nthe frame", input());
    for (region, (oracle, port)) in oracle.regions.iter().zip(&port.regions).enumerate() {
        if oracle != port {
            let at = (0..oracle.len()).find(|&at| oracle[at] != port[at]).unwrap();
            same!(oracle[at..], port[at..], "{}\nregion {region} from byte {at} on", input());
        }
    }
    Ok(number)
}
