//! decode listings.

use cases::listing::{edges, header, listed};
use cases::{Random, sum};

use crate::{LISTING, Replay};

/// jobs as the crate jobs has them in listed.rs.
pub fn listing(random: &mut Random, replay: &mut Replay) {
    for (count, length) in edges() {
        let seed = random.word() as u16;
        let mut input = header(random, count);
        let part = [&(length as u32).to_le_bytes()[..], &seed.to_le_bytes(), &input].concat();

        let mut state = seed as u32;
        while input.len() < length {
            state = (state * 25173 + 13849) % 65536;
            input.push((state / 256) as u8);
        }
        input.truncate(length);
        let text = listed(&input);
        let shown = &text[text.len().saturating_sub(1024)..];
        let answer = [&(text.len() as u32).to_le_bytes()[..], &sum(&text).to_le_bytes(), shown].concat();
        replay.job(LISTING, &part, &answer);
    }
}
