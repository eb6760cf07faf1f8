//! Sheets taken apart: each voice's track, made by the library's calls of that voice alone. It stays the same where the cues of the other voices change, and
//! the tracks add up to what the library gives for the sheet.
use crate::calls::{Random, knobs, rate};
use crate::cuts::any_records;
use crate::port::{self, Records};
use crate::row::Row;
use crate::sheets::line;
use crate::state::pattern;
use crate::tally::{Counts, drawn, same_all};
use std::collections::BTreeMap;

const VOICES: [char; 4] = ['b', 's', 'y', 'h'];
const TRACKS: [&str; 4] = ["track of b", "track of s", "track of y", "track of h"];

/// SIZE 1024 takes a thousand sheets, each with a variant for each voice that is kept, and 10^5 records for `init`; there are never fewer than eight sheets.
pub fn compare(size: u32) -> u64 {
    let mut r = Random::new(3000);
    let mut counts = Counts::default();
    for _ in 0..size.max(8) {
        let sheet = Sheet::random(&mut r);
        let tracks = sheet.tracks();
        counts.add("sheet from its tracks", sheet.is_sum(&tracks));
        for (i, kept) in VOICES.into_iter().enumerate() {
            let variant = sheet.variant(&mut r, kept);
            let others = variant.tracks();
            counts.add(TRACKS[i], alike(&tracks[i], &others[i]));
            counts.add("sheet from its tracks", variant.is_sum(&others));
        }
    }
    counts.report() + drawn("init twice", size * 100, same_init)
}

#[derive(Clone, Copy)]
struct Cue {
    voice: char,
    /// accent, f0, a, decay, c
    knobs: [f32; 5],
}

impl Cue {
    fn random(r: &mut Random, voices: &[char]) -> Self {
        let voice = r.of(voices);
        Cue { voice, knobs: knobs(r, voice) }
    }
}

/// A sheet that is accepted: cues by their starts, all below the length.
struct Sheet {
    rate: u32,
    length: u32,
    cues: BTreeMap<u32, Cue>,
}

/// What a voice gives to each sample of a sheet: nothing before its first cue. There is no track where a call is refused, which none may be.
type Track = Option<Vec<Option<f32>>>;

impl Sheet {
    fn random(r: &mut Random) -> Self {
        let rate = if r.one_in(8) { r.of(&[16000, 48000, 96000]) } else { 16000 + r.below(80001) };
        let length = match r.below(8) {
            0 => r.of(&[1, 2, 16384]),
            1 => 1 + r.below(16384),
            _ => 1 + r.below(600),
        };
        let mut sheet = Sheet { rate, length, cues: BTreeMap::new() };
        for _ in 0..if r.one_in(8) { 64 } else { r.below(16) } {
            let cue = Cue::random(r, &VOICES);
            sheet.put(r, cue);
        }
        sheet
    }

    /// One cue more at a random start, if that is free and there is room for a cue.
    fn put(&mut self, r: &mut Random, cue: Cue) {
        let start = r.below(self.length);
        if self.cues.len() < 64 {
            self.cues.entry(start).or_insert(cue);
        }
    }

    /// The sheet with the cues of one voice as they are: of those of the others a third is taken out, a third is moved, and new ones are put in.
    fn variant(&self, r: &mut Random, kept: char) -> Self {
        let mut variant = Sheet { cues: BTreeMap::new(), ..*self };
        let mut moved = Vec::new();
        for (start, cue) in &self.cues {
            match if cue.voice == kept { 0 } else { r.below(3) } {
                0 => drop(variant.cues.insert(*start, *cue)),
                1 => moved.push(*cue),
                _ => {}
            }
        }
        let others: Vec<char> = VOICES.into_iter().filter(|voice| *voice != kept).collect();
        moved.extend((0..1 + r.below(8)).map(|_| Cue::random(r, &others)));
        moved.into_iter().for_each(|cue| variant.put(r, cue));
        variant
    }

    fn text(&self) -> String {
        let lines: String = self.cues.iter().map(|(start, cue)| line(*start, cue.voice, cue.knobs)).collect();
        format!("{},{}\n{lines}", self.rate, self.length)
    }

    fn tracks(&self) -> [Track; 4] {
        VOICES.map(|voice| self.track(voice))
    }

    /// Every cue of the sheet, of whatever voice, begins a segment. The voice is struck where the cue is its own, and runs with its latest knobs.
    fn track(&self, voice: char) -> Track {
        let mut records = Records::default();
        let mut refusal = records.init(voice, self.rate as f32);
        let mut track = vec![None; self.length as usize];
        let mut latest = None;
        let ends = self.cues.keys().skip(1).chain([&self.length]);
        for ((start, cue), end) in self.cues.iter().zip(ends) {
            let own = cue.voice == voice;
            latest = if own { Some(cue.knobs) } else { latest };
            if let Some(knobs) = latest {
                let mut block = vec![0.0; (end - start) as usize];
                refusal = refusal.max(records.render(&Row::of_cue(voice, own, knobs), &mut block));
                track[*start as usize..*end as usize].iter_mut().zip(block).for_each(|(given, x)| *given = Some(x));
            }
        }
        (refusal == 0).then_some(track)
    }

    /// Whether the library accepts the sheet, and gives for it 0.0 plus the tracks in their order.
    fn is_sum(&self, tracks: &[Track; 4]) -> bool {
        let mut want = vec![0.0; self.length as usize];
        for track in tracks {
            let Some(track) = track else { return false };
            want.iter_mut().zip(track).for_each(|(sum, given)| *sum = given.map_or(*sum, |x| *sum + x));
        }
        let mut got = vec![0.25; self.length as usize];
        let answer = port::sheet(self.text().as_bytes(), &mut got);
        (answer.number, answer.cues as usize) == (0, self.cues.len()) && same_all(&want, &got)
    }
}

fn alike(x: &Track, y: &Track) -> bool {
    let patterns = |track: &Vec<Option<f32>>| track.iter().map(|given| given.map(pattern)).collect::<Vec<_>>();
    x.as_ref().zip(y.as_ref()).is_some_and(|(x, y)| patterns(x) == patterns(y))
}

/// From any record an init leaves what the next one leaves, the noise state too; and so does a refused one.
fn same_init(r: &mut Random) -> bool {
    let (from, rate) = (any_records(r), rate(r));
    VOICES.into_iter().all(|voice| {
        let mut records = from;
        let mut init = || {
            let number = records.init(voice, rate);
            records.left(voice, number)
        };
        init() == init()
    })
}
