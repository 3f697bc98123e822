//! frames played one after the other: the whole record and the whole lane
//! after each, against the source's `play_frame`. between frames a voice is
//! changed, by hand or by a configuration, and the window rewritten. tells
//! how often each kind of frame was met. number 7: document 01's table.

use cases::Random;
use cases::configuring::{COEFFICIENTS, CONFIGURATION, Job, at_seven, record_of, voice_of};
use cases::playing::{Place, Play, change, configuration, decode_into, lengthen, litter};
use zakuro_core::memory::Memory;
use zakuro_core::services::dsp_voices::ProbePlayer;

use crate::kinds::{Met, Seen};
use crate::{port, same};

const FRAMES: usize = 60;

/// one of count is a run of frames.
pub fn compare(random: &mut Random, count: usize) -> Result<u64, String> {
    let refusals = refusals()?;
    let mut met = Met::none();
    for _ in 0..count {
        let seed = random.word();
        Run::new(seed).compare(&mut met).map_err(|told| format!("the run of seed {seed}, {told}"))?;
    }
    met.tell(count)?;
    Ok(refusals + met.frames)
}

/// records at each rule of number 7: refused and all left as it was, or
/// played.
fn refusals() -> Result<u64, String> {
    let jobs = at_seven(&mut Random::new(1));
    for (job, number) in &jobs {
        let given = vec![1; job.lane as usize];
        let (mut record, mut lane) = (job.record.clone(), given.clone());
        same!(*number, port::play(&mut record, &[], 0, &mut lane), "{job}\nthe number");
        if *number != 0 {
            same!((&job.record, &given), (&record, &lane), "{job}\nwhat a refusal leaves");
        }
    }
    Ok(jobs.len() as u64)
}

/// both sides of a run. the port's are `record` and `lent`, its lane, which
/// holds noise where nothing was decoded; it must always be as `lane`.
struct Run {
    random: Random,
    place: Place,
    player: ProbePlayer,
    memory: Memory,
    lane: Vec<i16>,
    record: Vec<u8>,
    lent: Vec<i16>,
    /// whether the entry was lengthened before this frame.
    lengthened: bool,
}

impl Run {
    fn new(seed: u64) -> Run {
        let mut random = Random::new(seed);
        let play = Play::random(&mut random);
        let (player, memory) = play.oracle();
        let (place, Play { lane, record, .. }) = (play.place(), play);
        Run { random, place, player, memory, lent: lane.clone(), lane, record, lengthened: false }
    }

    fn compare(mut self, met: &mut Met) -> Result<(), String> {
        let frames = 1 + self.random.below(FRAMES);
        for frame in 0..frames {
            self.frame(met).map_err(|told| format!("frame {frame}\n{told}"))?;
            if !self.go_on().map_err(|told| format!("after frame {frame}\n{told}"))? {
                break;
            }
        }
        Ok(())
    }

    fn frame(&mut self, met: &mut Met) -> Result<(), String> {
        let (before, lent) = (self.record.clone(), self.lent.clone());
        let given = self.player.voice();
        let followed = self.player.follow(&mut self.memory);
        decode_into(&followed, &mut self.lane);
        self.player.probe_play_frame(&mut self.memory);
        let after = self.player.voice();
        let window = &self.memory.phys.bytes;
        let number = port::play(&mut self.record, window, self.place.base, &mut self.lent);
        let (place, lengthened) = (&self.place, self.lengthened);
        met.count(&Seen { given: &given, followed: &followed, after: &after, place, lengthened });

        let input = || {
            let play =
                Play { base: self.place.base, window: window.clone(), lane: lent.clone(), record: before.clone() };
            format!("{play}")
        };
        if number != 0 {
            return Err(format!("{}\nthe port answers {number}", input()));
        }
        let oracle = record_of(&after);
        if let Some(at) = (0..oracle.len()).find(|&at| oracle[at] != self.record[at]) {
            let port = voice_of(&self.record);
            let told = format!("oracle: {after:?}\n{oracle:02X?}\nport:   {port:?}\n{:02X?}", self.record);
            return Err(format!("{}\nthe records differ first in byte {at}\n{told}", input()));
        }
        assert_eq!(self.lane[..after.decoded.len()], after.decoded);
        if let Some(at) = (0..self.lane.len()).find(|&at| self.lane[at] != self.lent[at]) {
            let (oracle, port) = (self.lane[at], self.lent[at]);
            return Err(format!("{}\nthe lanes differ first at {at}: oracle {oracle}, port {port}", input()));
        }
        Ok(())
    }

    /// what happens until the next frame, and whether there is one. a voice
    /// that is off is not played by the source; a few are here.
    fn go_on(&mut self) -> Result<bool, String> {
        self.lengthened = false;
        let mut voice = self.player.voice();
        let mut changed = false;
        if !voice.enabled {
            match self.random.below(8) {
                0 => return Ok(false),
                1 => return Ok(true),
                2 => lengthen(&mut voice, self.random.below(1000) as u32),
                _ => {}
            }
            voice.enabled = true;
            voice.ran_out_at_frame_end = false;
            changed = true;
        }
        if self.random.below(2) == 0 {
            for _ in 0..=self.random.below(2) {
                self.lengthened |= change(&mut self.random, &self.place, &mut voice, &mut self.memory.phys.bytes);
            }
            changed = true;
        }
        if changed {
            self.record = record_of(&voice);
            self.player.change(voice);
        }
        if self.random.below(8) == 0 {
            self.configure()?;
        }
        if self.random.below(16) == 0 {
            litter(&mut self.random, &mut self.record);
        }
        if self.random.below(16) == 0 {
            let decoded = self.player.voice().decoded.len();
            self.lent[decoded..].fill_with(|| self.random.word() as i16);
            self.lane.copy_from_slice(&self.lent);
        }
        Ok(true)
    }

    /// a configuration on both sides, where it is not refused.
    fn configure(&mut self) -> Result<(), String> {
        let configuration = configuration(&mut self.random, &self.place);
        let job = Job {
            lane: self.place.lane,
            record: self.record.clone(),
            configuration,
            coefficients: self.random.bytes(COEFFICIENTS),
        };
        if job.number() != 0 {
            return Ok(());
        }
        let mut configuration = job.configuration.clone();
        self.memory.regions[0] = [&job.configuration[..], &job.coefficients].concat();
        self.player.parse_config(&mut self.memory, 0, CONFIGURATION as u32);
        let number = port::configure(job.lane, &mut self.record, &mut configuration, &job.coefficients);
        if number != 0 || self.record != record_of(&self.player.voice()) {
            return Err(format!("{job}\nconfigured otherwise, {number}"));
        }
        Ok(())
    }
}
