//! recordings: a start, and what is written before each frame of a run into
//! the regions, the window and the lanes, and into nothing else.

use zakuro_core::services::dsp_voices::{ProbePlayer, VOICES};

use crate::Random;
use crate::calling::{Call, Capture, KIND_VOICES};
use crate::configuring::{CONFIGURATION, FLAGS, decoded};
use crate::layout::SIZES;

/// a byte of a region or of the window, or a sample of the lanes, and what it
/// becomes.
#[derive(Debug, Clone, Copy, PartialEq)]
pub enum Write {
    Region(usize, usize, u8),
    Window(usize, u8),
    Lanes(usize, i16),
}

/// what every run of it starts from, and the writes of each frame.
pub struct Recording {
    pub start: Capture,
    pub frames: Vec<Vec<Write>>,
}

impl Recording {
    /// of so many frames at most, along the run for all voices.
    pub fn new(random: Random, most: usize) -> Recording {
        let start = Capture::new(random);
        let mut run = start.clone();
        let mut frames = Vec::new();
        for _ in 0..run.frames(most) {
            frames.push(run.writes());
            run.serve();
        }
        Recording { start, frames }
    }
}

impl Call {
    /// writes into what is lent.
    pub fn write(&mut self, writes: &[Write]) {
        for write in writes {
            match *write {
                Write::Region(region, at, value) => self.regions[region][at] = value,
                Write::Window(at, value) => self.window[at] = value,
                Write::Lanes(at, value) => self.lanes[at] = value,
            }
        }
    }
}

/// in one of how many frames something is written on purpose into each place
/// of a region, in the order of layout::SIZES.
const SELDOM: [usize; 7] = [2, 2, 2, 8, 8, 8, 8];

impl Capture {
    /// writes on the oracle's side. what a voice has decoded is its own there:
    /// one whose decoded samples change forgets what they were decoded from,
    /// since it would take them for that again.
    pub fn write(&mut self, writes: &[Write]) {
        let mut lanes = [false; VOICES];
        for write in writes {
            match *write {
                Write::Region(region, at, value) => self.memory.regions[region][at] = value,
                Write::Window(at, value) => self.memory.phys.bytes[at] = value,
                Write::Lanes(at, value) => {
                    let length = self.runs[0].lane.len();
                    self.runs[at / length].lane[at % length] = value;
                    lanes[at / length] = true;
                }
            }
        }
        for (run, _) in self.runs.iter_mut().zip(lanes).filter(|(_, written)| *written) {
            let mut voice = run.stage.player.voice();
            let lane = &run.lane[..voice.decoded.len()];
            if voice.decoded != lane {
                voice.decoded.copy_from_slice(lane);
                run.stage.player = ProbePlayer::new(voice);
            }
        }
    }

    /// what is written before a frame: what happens before one in a capture,
    /// but for what is done to the voices, which is taken back, and more on
    /// purpose.
    fn writes(&mut self) -> Vec<Write> {
        let given = self.call(KIND_VOICES, Vec::new());
        let voices: Vec<ProbePlayer> = self.runs.iter().map(|run| run.stage.player.clone()).collect();
        self.before();
        let mut writes = differences(&given, &self.call(KIND_VOICES, Vec::new()));
        for ((run, player), record) in self.runs.iter_mut().zip(voices).zip(given.records) {
            (run.stage.player, run.record) = (player, record);
        }
        for more in [self.lane_writes(), self.region_writes(), self.window_writes()] {
            self.write(&more);
            writes.extend(more);
        }
        writes
    }

    /// samples in a row of one of four lanes, in every other of them within
    /// what is decoded.
    fn lane_writes(&mut self) -> Vec<Write> {
        let Capture { runs, random, .. } = self;
        let mut writes = Vec::new();
        for (voice, run) in runs.iter().enumerate() {
            let length = run.lane.len();
            let end = if random.below(2) == 0 { decoded(&run.record) } else { length };
            if end > 0 && random.below(4) == 0 {
                let from = random.below(end);
                let to = end.min(from + 1 + random.below(40));
                writes.extend((from..to).map(|at| Write::Lanes(voice * length + at, random.word() as i16)));
            }
        }
        writes
    }

    /// bytes of each place, now and then; any byte, which may be nobody's; and
    /// flags.
    fn region_writes(&mut self) -> Vec<Write> {
        let Capture { random, offsets, memory, .. } = self;
        let mut writes = Vec::new();
        for (region, bytes) in memory.regions.iter().enumerate() {
            let places = offsets.iter().zip(SIZES).zip(SELDOM);
            let places = places.map(|((at, size), seldom)| (*at as usize, size as usize, seldom));
            for (from, size, seldom) in places.chain([(0, bytes.len(), 2)]) {
                let count = if random.below(seldom) == 0 { 1 + random.below(6) } else { 0 };
                let any = |_| Write::Region(region, from + random.below(size), random.word() as u8);
                writes.extend((0..count).map(any));
            }
            if random.below(4) == 0 {
                let flag = random.pick(&FLAGS) as usize;
                let at = offsets[0] as usize + CONFIGURATION * random.below(VOICES) + flag / 8;
                writes.push(Write::Region(region, at, bytes[at] | 1 << (flag % 8)));
            }
        }
        writes
    }

    fn window_writes(&mut self) -> Vec<Write> {
        let Capture { random, memory, .. } = self;
        let length = memory.phys.bytes.len();
        let count = if length > 0 && random.below(2) == 0 { 1 + random.below(8) } else { 0 };
        (0..count).map(|_| Write::Window(random.below(length), random.word() as u8)).collect()
    }
}

/// what makes the one's memory the other's.
fn differences(before: &Call, after: &Call) -> Vec<Write> {
    fn changed<T: Copy + PartialEq>(before: &[T], after: &[T]) -> Vec<(usize, T)> {
        let pairs = before.iter().zip(after).enumerate();
        pairs.filter(|(_, (before, after))| before != after).map(|(at, (_, after))| (at, *after)).collect()
    }
    let mut writes = Vec::new();
    for region in 0..2 {
        let bytes = changed(&before.regions[region], &after.regions[region]);
        writes.extend(bytes.into_iter().map(|(at, value)| Write::Region(region, at, value)));
    }
    writes.extend(changed(&before.window, &after.window).into_iter().map(|(at, value)| Write::Window(at, value)));
    writes.extend(changed(&before.lanes, &after.lanes).into_iter().map(|(at, value)| Write::Lanes(at, value)));
    writes
}
