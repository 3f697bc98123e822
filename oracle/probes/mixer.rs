
// from here on the oracle's probe: a mixer made from its parts, and its
// parts read back.

impl Mixer {
    pub fn probe_new(volume: [f32; 3], aux: [bool; 2], mono: bool) -> Mixer {
        let output = if mono { Output::Mono } else { Output::Stereo };
        Mixer { volume, aux, output, ..Mixer::default() }
    }

    /// the volumes, the aux switches and whether the output is mono.
    pub fn probe_state(&self) -> ([f32; 3], [bool; 2], bool) {
        (self.volume, self.aux, self.output == Output::Mono)
    }

    /// kept out of line, so that its cost can be measured by name.
    #[inline(never)]
    pub fn probe_tick(&mut self, memory: &mut Memory, layout: Layout, read: u32, mixes: [QuadFrame; 3]) -> Frame {
        self.tick(memory, layout, read, mixes)
    }
}
