//! the kinds of frame that the comparison `play` tells apart, and how often
//! each was met.

use cases::playing::Place;
use zakuro_core::services::dsp_voices::{ProbeBuffer, ProbeDequeued, ProbeFollowed, ProbeFormat, ProbeVoice};

/// so many runs must meet every kind.
pub const MANY: usize = 2_000;
const FULL: u64 = 1 << 32;

/// a frame: the voice before it and after it, what happened in it, and
/// whether its entry was lengthened before.
pub struct Seen<'a> {
    pub given: &'a ProbeVoice,
    pub followed: &'a ProbeFollowed,
    pub after: &'a ProbeVoice,
    pub place: &'a Place,
    pub lengthened: bool,
}

impl Seen<'_> {
    fn plays(&self) -> bool {
        !self.followed.silent
    }

    /// plays on in the entry of the frame before.
    fn goes_on(&self) -> bool {
        self.plays() && self.given.remaining > 0
    }

    fn dequeues(&self) -> usize {
        self.followed.dequeued.len()
    }

    /// whether an entry that is dequeued is so.
    fn any(&self, test: impl Fn(&ProbeDequeued) -> bool) -> bool {
        self.followed.dequeued.iter().any(test)
    }

    fn any_adpcm(&self, test: impl Fn(&ProbeDequeued) -> bool) -> bool {
        self.any(|one| is_adpcm(&one.entry) && test(one))
    }

    fn any_pcm(&self, test: impl Fn(&ProbeBuffer) -> bool) -> bool {
        self.any(|one| !is_adpcm(&one.entry) && test(&one.entry))
    }

    /// the same of an entry that begins inside the window and ends past it.
    fn any_cut(&self, test: impl Fn(&ProbeBuffer) -> bool) -> bool {
        let inside = |entry: &ProbeBuffer| (self.place.base as u64..self.end()).contains(&at(entry));
        self.any_pcm(|entry| inside(entry) && at(entry) + bytes(entry) > self.end() && test(entry))
    }

    /// where the window ends.
    fn end(&self) -> u64 {
        self.place.base as u64 + self.place.length as u64
    }

    fn ids_alike(&self, one: &ProbeDequeued) -> bool {
        self.given.queue.iter().filter(|entry| entry.id == one.entry.id).count() > 1
    }

    /// a decode that is shorter than the one before it in the frame.
    fn shorter_after_longer(&self) -> bool {
        let pairs = self.followed.dequeued.windows(2);
        pairs.into_iter().any(|pair| is_adpcm(&pair[1].entry) && pair[1].decoded.len() < pair[0].decoded.len())
    }

    fn playing(&self, test: impl Fn(&ProbeBuffer) -> bool) -> bool {
        self.goes_on() && self.given.playing.as_ref().is_some_and(test)
    }

    fn past_decoded(&self) -> bool {
        self.after.length - self.after.remaining > self.after.decoded.len() as u32
    }

    fn fraction(&self, test: impl Fn(f64) -> bool) -> bool {
        self.plays() && test(self.given.fraction)
    }

    fn rate(&self, test: impl Fn(f64) -> bool) -> bool {
        self.plays() && test(self.given.rate)
    }
}

fn is_adpcm(entry: &ProbeBuffer) -> bool {
    entry.format == ProbeFormat::Adpcm
}

/// where it begins the next time.
fn begin(entry: &ProbeBuffer) -> u32 {
    if entry.has_played { 0 } else { entry.play_position.min(entry.length) }
}

fn at(entry: &ProbeBuffer) -> u64 {
    (entry.address & !3) as u64
}

/// bytes of a sample of a PCM entry, and of all.
fn size(entry: &ProbeBuffer) -> u64 {
    (if entry.format == ProbeFormat::Pcm8 { 1 } else { 2 }) << entry.stereo as u32
}

fn bytes(entry: &ProbeBuffer) -> u64 {
    entry.length as u64 * size(entry)
}

type Kind = (&'static str, fn(&Seen) -> bool);

const KINDS: [Kind; 48] = [
    ("a silent dequeue", |s| s.followed.silent && s.dequeues() == 1),
    ("switched off", |s| s.followed.silent && s.dequeues() == 0),
    ("played on from the frame before", |s| s.goes_on()),
    ("followed on", |s| s.plays() && s.given.remaining == 0),
    ("ended with its entry, and something queued", |s| s.after.ran_out_at_frame_end && !s.after.queue.is_empty()),
    ("ended with its entry, and nothing queued", |s| s.after.ran_out_at_frame_end && s.after.queue.is_empty()),
    ("ran out before its end", |s| s.plays() && s.followed.produced < 160),
    ("1 dequeue while playing", |s| s.plays() && s.dequeues() == 1),
    ("2 to 159 dequeues", |s| (2..160).contains(&s.dequeues())),
    ("160 dequeues", |s| s.dequeues() == 160),
    ("of equal ids the first", |s| s.any(|one| s.ids_alike(one))),
    ("a looping entry, first time", |s| s.any(|one| one.entry.looping && !one.entry.has_played)),
    ("a looping entry, come round", |s| s.any(|one| one.entry.looping && one.entry.has_played)),
    ("ADPCM decoded", |s| s.any_adpcm(|one| !one.decoded.is_empty())),
    ("ADPCM decoded, taken from the cache", |s| s.any_adpcm(|one| one.cached && !one.decoded.is_empty())),
    ("ADPCM absent", |s| s.any_adpcm(|one| one.decoded.is_empty() && one.entry.length > 0)),
    ("ADPCM of length 0, playing", |s| s.plays() && s.any_adpcm(|one| one.entry.length == 0)),
    ("ADPCM after longer ADPCM", |s| s.shorter_after_longer()),
    ("ADPCM with the stereo mark", |s| s.any_adpcm(|one| one.entry.stereo)),
    ("history set by a PCM entry", |s| s.any_pcm(|entry| entry.adpcm.is_some())),
    ("history set by absent ADPCM", |s| s.any_adpcm(|one| one.entry.adpcm.is_some() && one.decoded.is_empty())),
    ("PCM of length 0, playing", |s| s.plays() && s.any_pcm(|entry| entry.length == 0)),
    ("begun at its end, playing", |s| {
        s.plays() && s.any(|one| one.entry.length > 0 && begin(&one.entry) == one.entry.length)
    }),
    ("begun at its end, silent", |s| s.followed.silent && s.any(|one| begin(&one.entry) == one.entry.length)),
    ("begun in its midst", |s| s.any(|one| (1..one.entry.length).contains(&begin(&one.entry)))),
    ("low bits of the address set", |s| s.any(|one| one.entry.address & 3 != 0)),
    ("an entry that passes 2^32", |s| s.any_pcm(|entry| at(entry) + bytes(entry) > FULL)),
    ("an entry of 2^32 bytes or more", |s| s.any_pcm(|entry| bytes(entry) >= FULL)),
    ("an entry that the window's end cuts", |s| s.any_cut(|_| true)),
    ("a stereo sample that the window's end cuts", |s| {
        s.any_cut(|entry| entry.stereo && !(s.end() - at(entry)).is_multiple_of(size(entry)))
    }),
    ("look-ups present and absent", |s| s.plays() && s.followed.present > 0 && s.followed.absent > 0),
    ("a window that ends at 2^32", |s| s.end() == FULL),
    ("an empty window", |s| s.place.length == 0),
    ("nothing playing, something remains", |s| s.goes_on() && s.given.playing.is_none()),
    ("record and entry of different length", |s| s.playing(|entry| entry.length != s.given.length)),
    ("lengthened before it", |s| s.lengthened),
    ("ADPCM past its decoded count", |s| s.playing(is_adpcm) && s.past_decoded()),
    ("fraction 0.0", |s| s.fraction(|x| x.to_bits() == 0)),
    ("fraction -0.0", |s| s.fraction(|x| x.to_bits() == 1 << 63)),
    ("fraction in between", |s| s.fraction(|x| x > 0.0 && x < 1.0)),
    ("fraction of 1 or more", |s| s.goes_on() && s.fraction(|x| x >= 1.0 && x.is_finite())),
    ("infinite fraction", |s| s.goes_on() && s.fraction(f64::is_infinite)),
    ("subnormal rate", |s| s.rate(f64::is_subnormal)),
    ("whole rate", |s| s.rate(|x| x.fract() == 0.0 && x < 1e9)),
    ("rate of 2^31 or more", |s| s.rate(|x| (2f64.powi(31)..2f64.powi(32)).contains(&x))),
    ("rate of 2^32 or more", |s| s.rate(|x| x >= 2f64.powi(32))),
    ("a filter on", |s| {
        s.followed.produced > 0 && (s.given.filters.simple.is_some() || s.given.filters.biquad.is_some())
    }),
    ("a voice that is off", |s| !s.given.enabled),
];

/// how often each kind was met.
pub struct Met {
    pub frames: u64,
    kinds: [u64; KINDS.len()],
    /// entries heard, by format and channels and the voice's interpolation.
    heard: [[[u64; 3]; 2]; 3],
}

impl Met {
    pub fn none() -> Met {
        Met { frames: 0, kinds: [0; KINDS.len()], heard: Default::default() }
    }

    pub fn count(&mut self, seen: &Seen) {
        self.frames += 1;
        for ((_, test), times) in KINDS.iter().zip(&mut self.kinds) {
            *times += test(seen) as u64;
        }
        let first = seen.given.playing.iter().filter(|_| seen.goes_on());
        let rest = seen.followed.dequeued.iter().map(|one| &one.entry).filter(|_| seen.plays());
        for entry in first.chain(rest) {
            self.heard[entry.format as usize][entry.stereo as usize][seen.given.interpolation as usize] += 1;
        }
    }

    /// prints the table; after many runs every kind must have been met.
    pub fn tell(&self, runs: usize) -> Result<(), String> {
        println!("play: {runs} runs, {} frames", self.frames);
        let mut never = table("play", KINDS.iter().map(|(kind, _)| *kind).zip(self.kinds));
        for (format, name) in ["PCM8", "PCM16", "ADPCM"].into_iter().enumerate() {
            for (stereo, channels) in ["mono", "stereo"].into_iter().enumerate() {
                let [polyphase, linear, none] = self.heard[format][stereo];
                println!("play: {name} {channels}: {polyphase} polyphase, {linear} linear, {none} not interpolated");
                if [polyphase, linear, none].contains(&0) {
                    never.push(format!("{name} {channels} with each interpolation"));
                }
            }
        }
        if runs >= MANY && !never.is_empty() {
            return Err(format!("never met: {}", never.join("; ")));
        }
        Ok(())
    }
}

/// prints how often each kind was met, and gives those that never were.
pub fn table(name: &str, kinds: impl Iterator<Item = (&'static str, u64)>) -> Vec<String> {
    let mut never = Vec::new();
    for (kind, times) in kinds {
        println!("{name}: {times:>10} {kind}");
        if times == 0 {
            never.push(kind.to_string());
        }
    }
    never
}
