//! Makes drills for the tests: random lines, settings and rooms, and a fixed set
//! that has every code point, every room and every boundary of the settings.

use crate::drill::{characters, write_drill};
use crate::generate::{boundary_settings, right_settings, wrong_settings};
use crate::log::RawSettings;
use crate::random::Random;

/// What a drill is written from, and the length of the byte run for it.
pub struct DrillCase {
    pub settings: RawSettings,
    pub line: Vec<u16>,
    pub room: usize,
}

/// No character needs more bytes than a chord: five events of 13.
const CHORD_LENGTH: usize = 65;
const PLAIN_LENGTH: usize = 26;
const SETTINGS_LENGTH: usize = 8;
/// Beyond any line of the tests.
const AMPLE: usize = 20_000;

/// Code points on no face: the words of marks, the edges of the table of 256 and
/// of the kana in it, signs beside the two full-width ones, surrogates, and more.
#[rustfmt::skip]
pub const STRANGERS: [u16; 40] = [
    0, 1, 2, 3, 0x0a, 0x20, 0x2c, 0x2e, 0x41, 0x7f, 0xff, 0x100, 0x2fff, 0x3000, 0x3003, 0x3040,
    0x308e, 0x3090, 0x3091, 0x3094, 0x3095, 0x3097, 0x309f, 0x30a0, 0x30a1, 0x30ab, 0x30fa, 0x30fd,
    0x30ff, 0x3100, 0x3101, 0x304b ^ 0x8000, 0xd800, 0xdfff, 0xfeff, 0xff0b, 0xff0d, 0xff0f,
    0xff61, 0xffff,
];

// ---- Random drills ----

/// One random drill; the same random numbers give the same drill.
pub fn random_drill(random: &mut Random) -> DrillCase {
    let settings = random_settings(random);
    let line = random_line(random);
    let room = random_room(random, settings, &line);
    DrillCase { settings, line, room }
}

/// Settings in range, and a few that are not.
pub fn random_settings(random: &mut Random) -> RawSettings {
    if random.once_in(12) {
        wrong_settings(random)
    } else {
        right_settings(random)
    }
}

/// A line of up to 200 words: most have every character on a face, some have one
/// stranger, some have many.
pub fn random_line(random: &mut Random) -> Vec<u16> {
    let length = random_length(random);
    let known = characters();
    let strange = random.below(6);
    let mut line: Vec<u16> = vec![];
    for _ in 0..length {
        let word = match line.last() {
            Some(last) if random.once_in(5) => *last,
            _ if strange == 0 && random.once_in(8) => stranger(random),
            _ => random.pick(&known),
        };
        line.push(word);
    }
    if strange == 1 && length > 0 {
        line[random.place(length)] = stranger(random);
    }
    line
}

fn random_length(random: &mut Random) -> usize {
    match random.below(32) {
        0 => 0,
        1..=24 => random.place(24),
        25..=30 => random.place(70),
        _ => random.place(201),
    }
}

/// A code point that is most likely on no face.
fn stranger(random: &mut Random) -> u16 {
    match random.below(4) {
        0 => random.next() as u16,
        1 => random.between(0x3000, 0x30ff) as u16,
        _ => random.pick(&STRANGERS),
    }
}

/// A run's length: ample, just enough, one too short, none, anything below. Where
/// the line is refused anyway it is taken around what so many characters would need.
fn random_room(random: &mut Random, settings: RawSettings, line: &[u16]) -> usize {
    let (answer, log) = write_drill(settings, line, usize::MAX);
    let refused = SETTINGS_LENGTH + PLAIN_LENGTH * line.len();
    let need = if answer.number == 0 { log.len() } else { refused };
    match random.below(12) {
        0 => 0,
        1 | 2 => need.saturating_sub(1),
        3..=5 => need,
        6 => need + 1,
        7 => random.place(need),
        8 => random.place(SETTINGS_LENGTH + 1),
        _ => need + 2 + random.place(500),
    }
}

// ---- The fixed set ----

/// A short line with plain keys, both thumbs, both full-width signs, letters doubled.
const SHORT: [u16; 8] = [0x3055, 0x3055, 0x304c, 0x304c, 0x3048, 0xff0e, 0xff0c, 0x30fc];
/// Long enough for stamps of four bytes.
const LONG: usize = 70_000;
const USUAL: RawSettings = (100, 50, 50, 0);

type Visit<'a, E> = &'a mut dyn FnMut(DrillCase) -> Result<(), E>;

/// Hands over every drill of the fixed set; stops at the first error.
pub fn every_drill<E>(mut visit: impl FnMut(DrillCase) -> Result<(), E>) -> Result<(), E> {
    every_code_point(&mut visit)?;
    every_room(&[], &mut visit)?;
    every_room(&SHORT, &mut visit)?;
    every_boundary(&mut visit)?;
    strangers_everywhere(&mut visit)?;
    long_line(&mut visit)
}

/// All 86 characters, each twice in a row.
pub fn doubled() -> Vec<u16> {
    characters().iter().flat_map(|word| [*word, *word]).collect()
}

/// Every code point alone, and behind two characters.
fn every_code_point<E>(visit: Visit<E>) -> Result<(), E> {
    for word in 0..=u16::MAX {
        for line in [vec![word], vec![SHORT[0], SHORT[2], word]] {
            visit(DrillCase { settings: USUAL, line, room: 4 * CHORD_LENGTH })?;
        }
    }
    Ok(())
}

/// Every length of run, up to more than enough.
fn every_room<E>(line: &[u16], visit: Visit<E>) -> Result<(), E> {
    let most = SETTINGS_LENGTH + CHORD_LENGTH * line.len() + 5;
    (0..most).try_for_each(|room| visit(DrillCase { settings: USUAL, line: line.to_vec(), room }))
}

/// Settings on and beside every boundary: with all characters, with one on no face,
/// and with no room.
fn every_boundary<E>(visit: Visit<E>) -> Result<(), E> {
    for settings in boundary_settings() {
        let strange = vec![SHORT[0], 1];
        visit(DrillCase { settings, line: doubled(), room: AMPLE })?;
        visit(DrillCase { settings, line: strange.clone(), room: AMPLE })?;
        visit(DrillCase { settings, line: strange, room: 0 })?;
        visit(DrillCase { settings, line: SHORT.to_vec(), room: 7 })?;
    }
    Ok(())
}

/// Every stranger at every place of a line of all characters, and two of them.
fn strangers_everywhere<E>(visit: Visit<E>) -> Result<(), E> {
    let all = characters();
    for (index, word) in STRANGERS.iter().enumerate() {
        for place in 0..all.len() {
            let mut line = all.clone();
            line[place] = *word;
            let later = place + index;
            if let Some(second) = line.get_mut(later) {
                *second = *word;
            }
            let room = if index % 2 == 0 { AMPLE } else { place };
            visit(DrillCase { settings: USUAL, line, room })?;
        }
    }
    Ok(())
}

fn long_line<E>(visit: Visit<E>) -> Result<(), E> {
    let line: Vec<u16> = characters().into_iter().cycle().take(LONG).collect();
    let room = SETTINGS_LENGTH + CHORD_LENGTH * LONG;
    visit(DrillCase { settings: USUAL, line, room })
}
