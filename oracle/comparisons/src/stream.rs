//! decodes with the port what standard input holds: each record has 16
//! coefficients, the history, the count and the frames, each answer the
//! samples and the history, as decode.rs of the crate jobs has them.

use std::io::{self, Read, Write};

use cases::bytes_of;

use crate::port;

pub fn decode() -> Result<(), String> {
    let mut input = Vec::new();
    io::stdin().read_to_end(&mut input).map_err(|error| error.to_string())?;
    let mut output = Vec::new();
    let mut rest = &input[..];
    while !rest.is_empty() {
        let (head, tail) = rest.split_at_checked(38).ok_or("a record is cut short")?;
        let mut halves = head.chunks(2).map(|half| i16::from_le_bytes([half[0], half[1]]));
        let mut half = || halves.next().unwrap();
        let coefficients = std::array::from_fn(|_| half());
        let mut history = std::array::from_fn(|_| half());
        let count = half() as u16 as usize;
        let (data, tail) = tail.split_at_checked(bytes_of(count)).ok_or("frames are cut short")?;
        let mut samples = vec![0; count];
        if port::decode_adpcm(data, count, &coefficients, &mut history, &mut samples) != 0 {
            return Err(format!("{count} samples were refused"));
        }
        output.extend(samples.iter().chain(&history).flat_map(|value| value.to_le_bytes()));
        rest = tail;
    }
    io::stdout().write_all(&output).map_err(|error| error.to_string())
}
