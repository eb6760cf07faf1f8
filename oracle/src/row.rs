//! A row as `replay` reads it: a call, or a strike and a run.

#[derive(Clone, Copy)]
pub enum Kind {
    Zero,
    Init,
    Strike,
    /// A run, and before it a strike where the row has `TRIGGER`.
    Render,
}

pub const SUSTAIN: u8 = 0x01;
pub const TRIGGER: u8 = 0x02;
pub const LINEAR: u8 = 0x04;
pub const RESONANCE: u8 = 0x08;
pub const TWO_STAGE: u8 = 0x10;

/// `knobs` of an `Init`: the rate first. Of a `Strike` and a `Render`: accent, f0, a, decay, c, and the bass's self_fm_amount; a strike reads accent and, of y and
/// h, decay. `last` is the word at the end of a row, where an answer has the noise state: each record has its own, so no call reads one here. A `Render` of the
/// transient, c, reads its n there.
#[derive(Clone, Copy)]
pub struct Row {
    pub voice: char,
    pub kind: Kind,
    pub flags: u8,
    pub samples: u32,
    pub knobs: [f32; 6],
    pub last: u32,
}

impl Row {
    /// The block that a sheet has a voice render with the knobs of a cue: nothing sustains, and the hi-hat has the swing VCA, resonance and no two-stage envelope.
    /// How many samples it has is told by its buffer. With `trigger` the voice is struck before it.
    pub fn of_cue(voice: char, trigger: bool, [accent, f0, a, decay, c]: [f32; 5]) -> Self {
        let flags = RESONANCE | if trigger { TRIGGER } else { 0 };
        Row { voice, kind: Kind::Render, flags, samples: 0, knobs: [accent, f0, a, decay, c, 0.0], last: 0 }
    }

    pub fn flag(&self, flag: u8) -> bool {
        self.flags & flag != 0
    }
}

impl std::fmt::Display for Row {
    fn fmt(&self, f: &mut std::fmt::Formatter) -> std::fmt::Result {
        let kind = match self.kind {
            Kind::Zero => 'n',
            Kind::Init => 'i',
            Kind::Strike => 'k',
            Kind::Render => 'r',
        };
        write!(f, "{} {kind} {:02x} {:08x}", self.voice, self.flags, self.samples)?;
        for knob in self.knobs {
            write!(f, " {:08x}", crate::state::pattern(knob))?;
        }
        write!(f, " {:08x}", self.last)
    }
}
