//! the kinds of frame that the comparison `voice` tells apart, and how often
//! each was met.

use cases::configuring::record_of;
use cases::serving::{Framed, Serve};
use zakuro_core::services::dsp_voices::{FRAME_SAMPLES, ProbeFormat};

use crate::kinds::{MANY, table};

const QUICK: f32 = 16_384.0;

/// a frame: what it was given, its number and that of the frame before it,
/// what it came to, and the region read, in this frame and in the one before.
pub struct Seen<'a> {
    pub serve: &'a Serve,
    pub number: u8,
    pub before: u8,
    pub framed: &'a Framed,
    pub read: usize,
    pub read_before: usize,
}

impl Seen<'_> {
    fn served(&self) -> bool {
        self.number == 0
    }

    fn word(&self) -> u32 {
        u32::from_le_bytes(self.serve.lent.configuration[..4].try_into().unwrap())
    }

    fn flagged(&self, bits: &[u32]) -> bool {
        self.served() && bits.iter().all(|bit| self.word() >> bit & 1 == 1)
    }

    /// 21 would apply if the queue had room.
    fn long_adpcm(&self) -> bool {
        let mut job = self.serve.job();
        job.queue(0);
        job.number() == 21
    }

    /// whether it was enabled before and after its configuration.
    fn turned(&self, before: bool, after: bool) -> bool {
        self.served() && self.framed.given.enabled == before && self.framed.settled.enabled == after
    }

    fn disabled(&self) -> bool {
        self.served() && !self.framed.settled.enabled
    }

    fn switched_off(&self) -> bool {
        self.served() && self.framed.settled.enabled && !self.framed.after.enabled
    }

    fn ramps(&self) -> bool {
        self.framed.settled.ramp.iter().any(Option::is_some)
    }

    fn told(&self) -> bool {
        self.served() && self.framed.left.status[1] != 0
    }

    /// mixed: enabled to the end.
    fn heard(&self) -> bool {
        self.served() && self.framed.after.enabled
    }

    fn plays(&self) -> bool {
        self.framed.followed.as_ref().is_some_and(|followed| !followed.silent)
    }

    fn produced(&self) -> usize {
        self.framed.followed.as_ref().map_or(0, |followed| followed.produced)
    }

    /// the gains that fade, from and to.
    fn fades(&self) -> impl Iterator<Item = (f32, f32)> {
        let settled = &self.framed.settled;
        let ramps = settled.ramp.into_iter().zip(settled.gain).filter(|_| self.heard());
        ramps.flat_map(|(ramp, gain)| ramp.into_iter().flat_map(move |from| from.into_iter().zip(gain)))
    }

    fn any_fade(&self, test: impl Fn(f32, f32) -> bool) -> bool {
        self.fades().any(|(from, to)| from != to && test(from, to))
    }

    fn any_steady(&self, test: impl Fn(f32) -> bool) -> bool {
        let settled = &self.framed.settled;
        let steady = settled.gain.into_iter().zip(settled.ramp).filter(|(_, ramp)| ramp.is_none());
        self.heard() && self.plays() && steady.into_iter().any(|(gains, _)| gains.into_iter().any(&test))
    }

    fn wraps(&self) -> bool {
        let given = self.serve.lent.mixes.iter();
        given.zip(&self.framed.parts).any(|(value, part)| value.checked_add(*part).is_none())
    }

    /// something was added to each channel of each mix.
    fn everywhere(&self) -> bool {
        self.framed.parts.chunks(FRAME_SAMPLES).all(|channel| channel.iter().any(|part| *part != 0))
    }

    /// the filters that samples went through.
    fn filtered(&self, simple: bool, biquad: bool) -> bool {
        let filters = &self.framed.settled.filters;
        self.produced() > 0 && (filters.simple.is_some(), filters.biquad.is_some()) == (simple, biquad)
    }

    /// how many filters were on before and after the configuration.
    fn filters(&self) -> [usize; 2] {
        [&self.framed.given, &self.framed.settled]
            .map(|voice| voice.filters.simple.is_some() as usize + voice.filters.biquad.is_some() as usize)
    }

    fn decodes(&self) -> bool {
        let dequeued = self.framed.followed.iter().flat_map(|followed| &followed.dequeued);
        dequeued.into_iter().any(|one| one.entry.format == ProbeFormat::Adpcm && !one.decoded.is_empty())
    }

    /// plays on in ADPCM of a frame before.
    fn decoded_before(&self) -> bool {
        let settled = &self.framed.settled;
        let adpcm = settled.playing.as_ref().is_some_and(|entry| entry.format == ProbeFormat::Adpcm);
        self.plays() && adpcm && settled.remaining > 0 && !settled.decoded.is_empty()
    }

    fn littered(&self) -> bool {
        self.serve.lent.record != record_of(&self.framed.given)
    }
}

type Kind = (&'static str, fn(&Seen) -> bool);

const KINDS: [Kind; 54] = [
    ("served", |s| s.served()),
    ("refused by 20", |s| s.number == 20),
    ("refused by 20, and 21 applies too", |s| s.number == 20 && s.long_adpcm()),
    ("refused by 21", |s| s.number == 21),
    ("refused as in the frame before", |s| !s.served() && s.number == s.before),
    ("refused, something under marks that are off", |s| !s.served() && s.littered()),
    ("refused while disabled", |s| !s.served() && !s.framed.given.enabled),
    ("refused with ramps and the update mark", |s| !s.served() && s.ramps() && s.framed.given.buffer_update),
    ("served after a refusal", |s| s.served() && s.before != 0),
    ("nothing new in the configuration", |s| s.served() && s.word() == 0),
    ("something new in it", |s| s.served() && s.word() != 0),
    ("something under marks that are off", |s| s.served() && s.littered()),
    ("reset", |s| s.flagged(&[29])),
    ("partly reset", |s| s.flagged(&[4]) && !s.flagged(&[29])),
    ("reset and an entry queued by it", |s| s.flagged(&[29]) && !s.framed.settled.queue.is_empty()),
    ("new gains in one mix or two", |s| (1..7).contains(&(s.word() >> 25 & 7)) && s.served()),
    ("new gains in every mix", |s| s.flagged(&[25, 26, 27])),
    ("new coefficients", |s| s.flagged(&[2]) && s.framed.given.coefficients != s.framed.settled.coefficients),
    ("switched on by its configuration", |s| s.turned(false, true)),
    ("switched off by its configuration", |s| s.turned(true, false)),
    ("a filter switched on", |s| s.filters()[0] < s.filters()[1]),
    ("a filter switched off", |s| s.filters()[0] > s.filters()[1]),
    ("lengthened by its configuration", |s| s.flagged(&[3]) && s.framed.settled.length > s.framed.given.length),
    ("64 queued after it", |s| s.served() && s.framed.settled.queue.len() == 64),
    ("disabled", |s| s.disabled()),
    ("disabled, ramps dropped", |s| s.disabled() && s.ramps()),
    ("disabled, the update mark told", |s| s.disabled() && s.told()),
    ("switched off in the frame", |s| s.switched_off()),
    ("switched off in the frame, ramps dropped", |s| s.switched_off() && s.ramps()),
    ("the update mark told", |s| s.told()),
    ("the update mark told once", |s| s.told() && s.framed.given.buffer_update && !s.framed.after.buffer_update),
    ("a silent dequeue", |s| s.heard() && !s.plays()),
    ("played", |s| s.plays()),
    ("played to the frame's end", |s| s.produced() == FRAME_SAMPLES),
    ("ran out before the frame's end", |s| s.plays() && s.produced() < FRAME_SAMPLES),
    ("ADPCM decoded in the frame", |s| s.decodes()),
    ("ADPCM decoded before", |s| s.decoded_before()),
    ("no filter", |s| s.filtered(false, false)),
    ("the simple filter alone", |s| s.filtered(true, false)),
    ("the biquad alone", |s| s.filtered(false, true)),
    ("both filters", |s| s.filtered(true, true)),
    ("faded", |s| s.any_fade(|_, _| true)),
    ("a ramp to the same gain", |s| s.fades().any(|(from, to)| from == to)),
    ("faded among gains of 16384 at the most", |s| s.any_fade(|a, b| a.abs() <= QUICK && b.abs() <= QUICK)),
    ("faded past them", |s| s.any_fade(|a, b| a.abs() > QUICK || b.abs() > QUICK)),
    ("faded by more than a single holds", |s| {
        s.any_fade(|a, b| a.is_finite() && b.is_finite() && !(b - a).is_finite())
    }),
    ("faded from what is not a number", |s| s.any_fade(|a, _| a.is_nan())),
    ("a gain below 0", |s| s.any_steady(|gain| gain < 0.0)),
    ("a gain past 16384", |s| s.any_steady(|gain| gain.abs() > QUICK)),
    ("a gain that is not a number", |s| s.any_steady(f32::is_nan)),
    ("a part that saturates", |s| s.framed.parts.iter().any(|part| [i32::MIN, i32::MAX].contains(part))),
    ("something added to every channel", |s| s.everywhere()),
    ("a sum that wraps", |s| s.wraps()),
    ("another region than before", |s| s.read != s.read_before),
];

/// how often each kind was met.
pub struct Met {
    pub frames: u64,
    kinds: [u64; KINDS.len()],
    read: [u64; 2],
}

impl Met {
    pub fn none() -> Met {
        Met { frames: 0, kinds: [0; KINDS.len()], read: [0; 2] }
    }

    pub fn count(&mut self, seen: &Seen) {
        self.frames += 1;
        self.read[seen.read] += 1;
        for ((_, test), times) in KINDS.iter().zip(&mut self.kinds) {
            *times += test(seen) as u64;
        }
    }

    /// prints the table; after many runs every kind must have been met.
    pub fn tell(&self, runs: usize) -> Result<(), String> {
        let [first, second] = self.read;
        println!("voice: {runs} runs, {} frames, region 0 read in {first}, region 1 in {second}", self.frames);
        let never = table("voice", KINDS.iter().map(|(kind, _)| *kind).zip(self.kinds));
        if runs >= MANY && !never.is_empty() {
            return Err(format!("never met: {}", never.join("; ")));
        }
        Ok(())
    }
}
