
// from here on the oracle's probe: private items of the file above, made
// public for the comparisons.

/// kept out of line, so that its cost can be measured by name.
#[inline(never)]
pub fn probe_decode(
    data: &[u8],
    count: usize,
    coefficients: &[i16; 16],
    history: &mut [i16; 2],
    samples: &mut Vec<i16>,
) {
    decode_adpcm(data, count, coefficients, history, samples);
}

pub fn probe_read_dsp32(memory: &mut Memory, address: u32) -> u32 {
    read_dsp32(memory, address)
}

pub fn probe_write_dsp32(memory: &mut Memory, address: u32, value: u32) {
    write_dsp32(memory, address, value);
}

pub fn probe_lerp(x0: [i16; 2], x1: [i16; 2], fraction: f64) -> [i16; 2] {
    lerp::<true>(x0, x1, fraction)
}

/// what a frame of samples adds to a mix at a gain.
pub fn probe_add(samples: &[i16; FRAME_SAMPLES], gain: f32) -> [i32; FRAME_SAMPLES] {
    let mut out = [0; FRAME_SAMPLES];
    add(&mut out, &samples.map(|sample| sample as f32), gain);
    out
}

/// what it adds while fading.
pub fn probe_fade(samples: &[i16; FRAME_SAMPLES], from: f32, to: f32) -> [i32; FRAME_SAMPLES] {
    let mut out = [0; FRAME_SAMPLES];
    fade(&mut out, &samples.map(|sample| sample as f32), from, to);
    out
}

/// what a configuration makes of the bits of a gain and of a rate. memory
/// has room for one configuration in region 0.
pub fn probe_gain_and_rate(memory: &mut Memory, bits: u32) -> (f32, f64) {
    memory.write32(config::DIRTY, dirty::GAIN | dirty::RATE_MULTIPLIER);
    memory.write32(config::GAIN, bits);
    memory.write32(config::RATE_MULTIPLIER, bits);
    let mut voice = Voice::default();
    parse_config(&mut voice, memory, 0, 0);
    (voice.gain[0][0], voice.rate)
}

pub fn probe_parse_config(voice: &mut ProbeVoice, memory: &mut Memory, base: u32, coefficients: u32) {
    let mut private: Voice = voice.clone().mirror();
    parse_config(&mut private, memory, base, coefficients);
    *voice = private.mirror();
}

pub fn probe_filters(filters: &mut ProbeFilters, samples: &mut [[i16; 2]]) {
    let mut private: Filters = filters.clone().mirror();
    private.process(samples);
    *filters = private.mirror();
}

/// a voice that plays frame after frame. what it keeps of its last decode, a
/// cache, stays with it.
#[derive(Debug, Clone)]
pub struct ProbePlayer(Voice);

impl ProbePlayer {
    pub fn new(voice: ProbeVoice) -> ProbePlayer {
        ProbePlayer(voice.mirror())
    }

    pub fn voice(&self) -> ProbeVoice {
        self.0.clone().mirror()
    }

    /// another voice that has decoded the same.
    pub fn change(&mut self, voice: ProbeVoice) {
        self.0 = Voice { decoded_from: self.0.decoded_from.take(), ..voice.mirror() };
    }

    /// kept out of line, so that its cost can be measured by name.
    #[inline(never)]
    pub fn probe_play_frame(&mut self, memory: &mut Memory) {
        self.0.play_frame(memory);
    }

    pub fn parse_config(&mut self, memory: &mut Memory, base: u32, coefficients: u32) {
        parse_config(&mut self.0, memory, base, coefficients);
    }

    /// what tick does for one voice, by the addresses of its configuration,
    /// coefficients and status. kept out of line, to be measured by name.
    #[inline(never)]
    pub fn probe_serve(&mut self, memory: &mut Memory, addresses: [u32; 3], mixes: &mut [QuadFrame; 3]) {
        let [configuration, coefficients, status] = addresses;
        parse_config(&mut self.0, memory, configuration, coefficients);
        if self.0.enabled {
            self.0.play_frame(memory);
        }
        self.0.mix_into(mixes);
        write_status(&mut self.0, memory, status);
    }

    /// what the next frame will do, found on a copy of the voice: the steps
    /// of play_frame up to the filters.
    pub fn follow(&self, memory: &mut Memory) -> ProbeFollowed {
        let mut voice = self.0.clone();
        let mut counting = Counting { memory, present: 0, absent: 0 };
        let follows_on = std::mem::take(&mut voice.ran_out_at_frame_end) && !voice.queue.is_empty();
        let silent = voice.remaining == 0 && !follows_on;
        let (mut dequeued, mut produced) = (Vec::new(), 0);
        while produced < FRAME_SAMPLES {
            if voice.remaining == 0 {
                let cached = voice.decodes_nothing_new(&mut counting);
                if !voice.dequeue(&mut counting) {
                    break;
                }
                let entry = voice.playing.unwrap().mirror();
                dequeued.push(ProbeDequeued { entry, decoded: voice.decoded.clone(), cached });
            }
            if silent {
                break;
            }
            produced = voice.play_buffer(&mut counting, produced);
        }
        let Counting { present, absent, .. } = counting;
        ProbeFollowed { silent, dequeued, produced, present, absent }
    }
}

impl Voices {
    /// puts a voice in the place of another, which is handed out.
    pub fn probe_swap(&mut self, index: usize, player: &mut ProbePlayer) {
        std::mem::swap(&mut self.voices[index], &mut player.0);
    }
}

/// what happens in a frame: the entries dequeued, how many samples are
/// produced, and how many look-ups find all bytes and how many do not.
#[derive(Debug)]
pub struct ProbeFollowed {
    pub silent: bool,
    pub dequeued: Vec<ProbeDequeued>,
    pub produced: usize,
    pub present: usize,
    pub absent: usize,
}

/// an entry that is dequeued, what is then decoded, and whether the cache
/// gave it.
#[derive(Debug)]
pub struct ProbeDequeued {
    pub entry: ProbeBuffer,
    pub decoded: Vec<i16>,
    pub cached: bool,
}

struct Counting<'a> {
    memory: &'a mut Memory,
    present: usize,
    absent: usize,
}

impl SampleMemory for Counting<'_> {
    fn physical(&mut self, address: u32, length: u32) -> Option<&[u8]> {
        let found = self.memory.physical(address, length);
        *(if found.is_some() { &mut self.present } else { &mut self.absent }) += 1;
        found
    }
}

impl Voice {
    /// whether the next dequeue takes what the cache holds: then the cache's
    /// own last history is found after it.
    fn decodes_nothing_new(&self, counting: &mut Counting) -> bool {
        const OWN: [i16; 2] = [-12_345, 23_456];
        if self.decoded_from.is_none() {
            return false;
        }
        let mut voice = self.clone();
        voice.decoded_from.as_mut().unwrap().end = OWN;
        voice.dequeue(&mut Counting { memory: counting.memory, present: 0, absent: 0 })
            && voice.decoded_from.is_some_and(|source| source.end == OWN)
    }
}

impl Default for ProbeVoice {
    fn default() -> Self {
        Voice::default().mirror()
    }
}

/// a private value as a plain one, and back.
trait Mirror<To> {
    fn mirror(self) -> To;
}

/// a public struct for a private one, with the same fields. a field it does
/// without is given with what it holds on the way back.
macro_rules! mirror {
    ($public:ident for $private:ident { $($field:ident: $type:ty,)+ } $(without $left:ident: $value:expr)?) => {
        #[derive(Debug, Clone, PartialEq)]
        pub struct $public { $(pub $field: $type,)+ }

        impl Mirror<$public> for $private {
            fn mirror(self) -> $public {
                $public { $($field: self.$field.mirror(),)+ }
            }
        }

        impl Mirror<$private> for $public {
            fn mirror(self) -> $private {
                $private { $($field: self.$field.mirror(),)+ $($left: $value)? }
            }
        }
    };
}

// decoded_from is a cache that alters no answer
mirror!(ProbeVoice for Voice {
    enabled: bool,
    sync_count: u16,
    rate: f64,
    format: ProbeFormat,
    stereo: bool,
    interpolation: ProbeInterpolation,
    filters: ProbeFilters,
    gain: [[f32; 4]; 3],
    ramp: [Option<[f32; 4]>; 3],
    coefficients: [i16; 16],
    history: [i16; 2],
    queue: Vec<ProbeBuffer>,
    playing: Option<ProbeBuffer>,
    decoded: Vec<i16>,
    remaining: u32,
    length: u32,
    fraction: f64,
    current_buffer_id: u16,
    last_buffer_id: u16,
    buffer_update: bool,
    position: u32,
    frame: Frame,
    ran_out_at_frame_end: bool,
} without decoded_from: None);

mirror!(ProbeBuffer for Buffer {
    address: u32,
    length: u32,
    format: ProbeFormat,
    stereo: bool,
    looping: bool,
    id: u16,
    adpcm: Option<[i16; 2]>,
    from_queue: bool,
    play_position: u32,
    has_played: bool,
});

mirror!(ProbeFilters for Filters { simple: Option<ProbeSimple>, biquad: Option<ProbeBiquad>, });

mirror!(ProbeSimple for SimpleFilter { b0: i32, a1: i32, y1: [i32; 2], });

mirror!(ProbeBiquad for BiquadFilter { b: [i32; 3], a: [i32; 2], x: [[i32; 2]; 2], y: [[i32; 2]; 2], });

/// the same for an enum.
macro_rules! mirror_enum {
    ($public:ident for $private:ident { $($case:ident),+ }) => {
        #[derive(Debug, Clone, Copy, PartialEq, Eq)]
        pub enum $public { $($case),+ }

        impl Mirror<$public> for $private {
            fn mirror(self) -> $public {
                match self { $($private::$case => $public::$case),+ }
            }
        }

        impl Mirror<$private> for $public {
            fn mirror(self) -> $private {
                match self { $($public::$case => $private::$case),+ }
            }
        }
    };
}

mirror_enum!(ProbeFormat for Format { Pcm8, Pcm16, Adpcm });
mirror_enum!(ProbeInterpolation for Interpolation { Polyphase, Linear, None });

macro_rules! mirror_itself {
    ($($type:ty)+) => { $(impl Mirror<$type> for $type {
        fn mirror(self) -> $type {
            self
        }
    })+ };
}

mirror_itself!(bool i16 i32 u16 u32 f32 f64);

impl<A: Mirror<B>, B, const N: usize> Mirror<[B; N]> for [A; N] {
    fn mirror(self) -> [B; N] {
        self.map(A::mirror)
    }
}

impl<A: Mirror<B>, B> Mirror<Option<B>> for Option<A> {
    fn mirror(self) -> Option<B> {
        self.map(A::mirror)
    }
}

impl<A: Mirror<B>, B> Mirror<Vec<B>> for Vec<A> {
    fn mirror(self) -> Vec<B> {
        self.into_iter().map(A::mirror).collect()
    }
}
