use std::array::from_fn;

use crate::Random;

/// coefficients and histories about which the decoder's sums turn.
pub const EXTREMES: [i16; 5] = [-32768, 32767, 0, 2048, -2048];

/// how many bytes hold count samples.
pub fn bytes_of(count: usize) -> usize {
    count.div_ceil(14) * 8
}

/// what the decoder is given.
#[derive(Debug, Clone)]
pub struct Decode {
    pub coefficients: [i16; 16],
    pub history: [i16; 2],
    pub count: usize,
    pub data: Vec<u8>,
}

impl Decode {
    pub fn random(random: &mut Random, count: usize) -> Decode {
        let kind = random.below(4);
        let mut value = || match kind {
            0 => random.word() as i16,
            1 => random.pick(&EXTREMES),
            // as an encoder makes them, few samples clamped
            2 => (random.below(4096) as i32 - 2048) as i16,
            _ if random.below(2) == 0 => random.pick(&EXTREMES),
            _ => random.word() as i16,
        };
        let coefficients = from_fn(|_| value());
        let history = from_fn(|_| value());
        Decode { coefficients, history, count, data: random.bytes(bytes_of(count)) }
    }

    /// document 01's three starred cases, and the samples that they give.
    pub fn by_hand() -> [(Decode, Vec<i16>); 3] {
        let plain = |data| Decode { coefficients: [0; 16], history: [0; 2], count: 1, data };
        [
            (Decode { count: 3, ..plain(vec![0, 0x1F, 0x70, 0, 0, 0, 0, 0]) }, vec![1, -1, 7]),
            (Decode { coefficients: [-32768; 16], history: [-32768; 2], ..plain(vec![0; 8]) }, vec![-32768]),
            (plain(vec![0x0F, 0x80, 0, 0, 0, 0, 0, 0]), vec![-32768]),
        ]
    }

    /// cases worth meeting in every run.
    pub fn fixed(random: &mut Random) -> Vec<Decode> {
        let mut cases = Decode::by_hand().map(|(case, _)| case).to_vec();
        for header in 0..=255 {
            let mut case = Decode::random(random, 14);
            case.data[0] = header;
            cases.push(case);
        }
        for count in 0..=60 {
            cases.push(Decode::random(random, count));
        }
        for frames in 5..=20 {
            for count in frames * 14 - 1..=frames * 14 + 1 {
                cases.push(Decode::random(random, count));
            }
        }
        for c1 in EXTREMES {
            for c2 in EXTREMES {
                for yn1 in EXTREMES {
                    for yn2 in EXTREMES {
                        cases.push(Decode {
                            coefficients: from_fn(|i| if i % 2 == 0 { c1 } else { c2 }),
                            history: [yn1, yn2],
                            count: 3,
                            data: random.bytes(8),
                        });
                    }
                }
            }
        }
        cases
    }
}
