//! the decode listing: how long it is, every byte of it, and what must stay as
//! it was behind it, for whole inputs and for what the program reads of them,
//! against the source's decoder and Rust's formatting.

use cases::listing::{HEADER, INPUT_ROOM, OUTPUT_ROOM, edges, header, listed};
use cases::{Random, bytes_of};

use crate::{port, same};

pub fn compare(random: &mut Random, count: usize) -> Result<u64, String> {
    let before = random.bytes(OUTPUT_ROOM);
    let mut output = before.clone();
    let mut compared = 0;
    let mut one = |random: &mut Random, count: usize, length: usize| {
        let mut input = header(random, count);
        input.extend(random.bytes(length.saturating_sub(HEADER)));
        input.truncate(length);
        let expected = listed(&input);
        let told = || format!("count {count}, {length} bytes {:02X?}", &input[..length.min(200)]);

        let mut held = |how: &str, n: usize, output: &mut [u8]| {
            same!(expected.len(), n, "{}\nhow long the listing is, {how}", told());
            if let Some(at) = (0..n).find(|&at| expected[at] != output[at]) {
                let line = at / 17 * 17..n.min(at / 17 * 17 + 17);
                same!(expected[line.clone()], output[line], "{}\nthe line with byte {at}, {how}", told());
            }
            same!(true, before[n..] == output[n..], "{}\nnothing changes behind the listing, {how}", told());
            output[..n].copy_from_slice(&before[..n]);
            compared += 1;
            Ok(())
        };
        let n = port::listing(&input, &mut output);
        held("the input whole", n, &mut output)?;

        let got = length.min(INPUT_ROOM);
        let mut buffer = random.bytes(INPUT_ROOM);
        buffer[..got].copy_from_slice(&input[..got]);
        let n = port::list_read(&buffer, got, &mut output);
        held("what the program reads", n, &mut output)
    };
    for (count, length) in edges() {
        one(random, count, length)?;
    }
    for _ in 0..count {
        let count = match random.below(100) {
            0 => random.below(65_536),
            1..10 => random.below(1000),
            _ => random.below(61),
        };
        let whole = HEADER + bytes_of(count);
        let length = match random.below(8) {
            0 => whole - 1 - random.below(whole.min(9)),
            1 => whole + 1 + random.below(9),
            2 => random.below(2 * whole),
            _ => whole,
        };
        one(random, count, length)?;
    }
    Ok(compared)
}
