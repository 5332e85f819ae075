//! Document 01's "Keystrokes to try" (P8 as request 1/12 has it) and "Where a
//! programmer slips", request 4/12's keystrokes, held keys (7/12), chords of two letters
//! (9/12), and a few more, as one table: what each keystroke commits and sends, and the
//! state it leaves. States and sendings that the papers don't name were worked out by
//! hand.

use trabeculon_model::log::RawSettings;
use trabeculon_model::pairs::{pair, Lent, Pair, NO_PAIRS};

/// Keystroke, what it commits, what it sends, the state it leaves.
pub type Line = (&'static str, &'static str, &'static str, &'static str);

pub struct Example {
    pub name: &'static str,
    /// T, J, L, solo.
    pub settings: (u64, u64, u64, u64),
    pub lines: &'static [Line],
}

/// An example with a list of pairs, T_s and N (9/12); every other has no pairs.
type Listed = (&'static str, (&'static [Pair], u16, u8));

/// The lists, by the names of their examples.
const LISTS: [Listed; 19] = [
    ("9/12, a chord of two letters", KA_SA),
    ("9/12, a millisecond too late", KA_SA),
    ("9/12, the order of the keys is ignored", KA_SA),
    ("9/12, T_s ends it", KA_SA),
    ("9/12, both are let go", KA_SA),
    ("9/12, a function key", KA_SA),
    ("9/12, a key in no pair waits as before", LONG),
    ("9/12, a key in some pair waits longer", LONG),
    ("9/12, a third letter, the pair is nearer", KA_SA_TA),
    ("9/12, equal gaps, a third letter that pairs", KA_SA_TA),
    ("9/12, equal gaps, a third letter that does not", KA_SA_TA),
    ("9/12, a thumb, the pair is nearer", KA_SA),
    ("9/12, a thumb, equal gaps", KA_SA),
    ("9/12, K goes up soon after M", KA_SA),
    ("9/12, L decides in S8, and not N", WIDE),
    ("9/12, the first pressed again", KA_SA),
    ("9/12, the pair's character is shown already", KA_SA_KA),
    ("9/12, due at 217", LATE),
    ("9/12, the 145 ms", SHORT),
];

/// か and さ give the sign U+4E00; T_s=100, N=50.
const KA_SA: (&[Pair], u16, u8) = (&[pair(21, 24, 0x4e00)], 100, 50);
/// And さ and た give U+4E8C.
const KA_SA_TA: (&[Pair], u16, u8) = (&[pair(24, 21, 0x4e00), pair(22, 24, 0x4e8c)], 100, 50);
/// か and さ give か.
const KA_SA_KA: (&[Pair], u16, u8) = (&[pair(24, 21, 0x304b)], 100, 50);
/// P is 150.
const LONG: (&[Pair], u16, u8) = (&[pair(21, 24, 0x4e00)], 100, 40);
/// N is 20.
const WIDE: (&[Pair], u16, u8) = (&[pair(21, 24, 0x4e00)], 100, 20);
const LATE: (&[Pair], u16, u8) = (&[pair(21, 24, 0x4e00)], 60, 50);
const SHORT: (&[Pair], u16, u8) = (&[pair(21, 24, 0x4e00)], 50, 50);

impl Example {
    pub fn lent(&self) -> Lent {
        let list = LISTS.iter().find(|(name, _)| *name == self.name);
        list.map_or(NO_PAIRS.clone(), |(_, (pairs, ts, n))| Lent::new(pairs, *ts, *n))
    }

    /// T, J, L, solo as a log holds them.
    pub fn raw_settings(&self) -> RawSettings {
        let (t, j, l, solo) = self.settings;
        (t as u16, j as u8, l as u8, solo as u8)
    }
}

const USUAL: (u64, u64, u64, u64) = (100, 50, 50, 0);
const SOLO: (u64, u64, u64, u64) = (100, 50, 50, 1);
const SLOW: (u64, u64, u64, u64) = (1_000, 50, 50, 0);
const SLOW_SOLO: (u64, u64, u64, u64) = (1_000, 50, 50, 1);

#[rustfmt::skip]
pub const EXAMPLES: [Example; 51] = [
    Example { name: "P1", settings: USUAL, lines: &[
        ("21@0", "", "か", "S2"),
        ("tick@99", "", "", "S2"),
        ("tick@100", "か", "", "S1"),
    ] },
    Example { name: "P2", settings: USUAL, lines: &[
        ("21@0", "", "か", "S2"),
        ("21up@50", "か", "", "S1"),
    ] },
    Example { name: "P3", settings: USUAL, lines: &[
        ("21@0", "", "か", "S2"),
        ("R@30", "", "", "S4"),
        ("21up@59", "か", "", "S3"),
    ] },
    Example { name: "P4", settings: USUAL, lines: &[
        ("21@0", "", "か", "S2"),
        ("R@30", "", "", "S4"),
        ("21up@60", "が", "<BS>が", "S1"),
    ] },
    Example { name: "P5", settings: USUAL, lines: &[
        ("R@0", "", "", "S3"),
        ("21@30", "", "が", "S5"),
        ("tick@59", "", "", "S5"),
        ("tick@60", "が", "", "S1"),
    ] },
    Example { name: "P6", settings: USUAL, lines: &[
        ("21@0", "", "か", "S2"),
        ("R@0", "", "", "S4"),
        ("tick@0", "が", "<BS>が", "S1"),
    ] },
    Example { name: "P7", settings: USUAL, lines: &[
        ("21@0", "", "か", "S2"),
        ("R@30", "", "", "S4"),
        ("24@50", "か", "ざ", "S5"),
        ("tick@70", "ざ", "", "S1"),
    ] },
    Example { name: "P8", settings: (100, 60, 50, 0), lines: &[
        ("21@0", "", "か", "S2"),
        ("R@30", "", "", "S4"),
        ("24@60", "が", "<BS>がさ", "S2"),
        ("tick@126", "", "", "S2"),
        ("tick@127", "さ", "", "S1"),
    ] },
    Example { name: "P8 with 24 one ms earlier", settings: (100, 60, 50, 0), lines: &[
        ("21@0", "", "か", "S2"),
        ("R@30", "", "", "S4"),
        ("24@59", "か", "ざ", "S5"),
        ("tick@87", "", "", "S5"),
        ("tick@88", "ざ", "", "S1"),
    ] },
    Example { name: "equal gaps in S5: the second thumb still has it", settings: (100, 50, 60, 1), lines: &[
        ("R@0", "", "", "S3"),
        ("21@30", "", "が", "S5"),
        ("L@60", "<R>", "<BS><R>か", "S4"),
        ("tick@89", "", "", "S4"),
        ("tick@90", "え", "<BS>え", "S1"),
    ] },
    Example { name: "one ms more in S5: the first thumb", settings: (100, 50, 60, 1), lines: &[
        ("R@0", "", "", "S3"),
        ("21@30", "", "が", "S5"),
        ("L@61", "が", "", "S3"),
        ("tick@127", "", "", "S3"),
        ("tick@128", "<L>", "<L>", "S1"),
    ] },
    Example { name: "P9", settings: SOLO, lines: &[
        ("R@0", "", "", "S3"),
        ("21@40", "", "が", "S5"),
        ("Rup@60", "", "", "S6"),
        ("tick@79", "", "", "S6"),
        ("tick@80", "<R>か", "<BS><R>か", "S1"),
    ] },
    Example { name: "P10", settings: SOLO, lines: &[
        ("R@0", "", "", "S3"),
        ("21@40", "", "が", "S5"),
        ("L@60", "<R>", "<BS><R>か", "S4"),
        ("tick@80", "え", "<BS>え", "S1"),
    ] },
    Example { name: "P11", settings: USUAL, lines: &[
        ("R@0", "", "", "S3"),
        ("21@1000", "", "が", "S5"),
        ("tick@1099", "", "", "S5"),
        ("tick@1100", "が", "", "S1"),
    ] },
    Example { name: "deadline before the event", settings: USUAL, lines: &[
        ("21@0", "", "か", "S2"),
        ("R@100", "か", "", "S3"),
        ("tick@200", "", "", "S3"),
    ] },
    Example { name: "waits rounded up, J=70, lag 10", settings: (100, 70, 50, 0), lines: &[
        ("21@0", "", "か", "S2"),
        ("R@10", "", "", "S4"),
        ("tick@33", "", "", "S4"),
        ("tick@34", "が", "<BS>が", "S1"),
    ] },
    Example { name: "the thumb keeps its stamp from S4 to S3", settings: SOLO, lines: &[
        ("21@0", "", "か", "S2"),
        ("R@30", "", "", "S4"),
        ("21up@59", "か", "", "S3"),
        ("tick@129", "", "", "S3"),
        ("tick@130", "<R>", "<R>", "S1"),
    ] },
    Example { name: "late by the press, not by the tick", settings: SOLO, lines: &[
        ("21@0", "", "か", "S2"),
        ("R@500", "か", "", "S3"),
        ("24@599", "", "ざ", "S5"),
        ("tick@697", "", "", "S5"),
        ("tick@698", "ざ", "", "S1"),
    ] },
    Example { name: "no backspace over a mark", settings: SOLO, lines: &[
        ("R@0", "", "", "S3"),
        ("L@10", "<R>", "<R>", "S3"),
        ("21@20", "", "え", "S5"),
        ("Lup@25", "", "", "S6"),
        ("F@29", "<L>か", "<BS><L>か", "S1"),
        ("F@29", "", "", "S1"),
    ] },
    Example { name: "an empty face commits and shows nothing", settings: USUAL, lines: &[
        ("0@0", "", "．", "S2"),
        ("R@10", "", "", "S4"),
        ("tick@20", "", "<BS>", "S1"),
        ("0up@30", "", "", "S1"),
        ("L@40", "", "", "S3"),
        ("30@50", "", "", "S5"),
        ("tick@60", "", "", "S1"),
    ] },
    Example { name: "400 ms", settings: (200, 99, 99, 0), lines: &[
        ("R@0", "", "", "S3"),
        ("21@1000", "", "が", "S5"),
        ("L@1296", "", "<BS>か", "S4"),
        ("tick@1696", "", "", "S4"),
        ("21up@1696", "え", "<BS>え", "S1"),
    ] },
    Example { name: "4/12, 399 ms in a plain chord", settings: SLOW, lines: &[
        ("21@0", "", "か", "S2"),
        ("R@500", "", "", "S4"),
        ("21up@899", "か", "", "S3"),
        ("tick@1500", "", "", "S3"),
    ] },
    Example { name: "4/12, 400 ms in a plain chord", settings: SLOW, lines: &[
        ("21@0", "", "か", "S2"),
        ("R@500", "", "", "S4"),
        ("tick@900", "", "", "S4"),
        ("21up@900", "が", "<BS>が", "S1"),
    ] },
    Example { name: "4/12, the thumb that rests has its old stamp", settings: SLOW_SOLO, lines: &[
        ("21@0", "", "か", "S2"),
        ("R@500", "", "", "S4"),
        ("21up@899", "か", "", "S3"),
        ("tick@1499", "", "", "S3"),
        ("tick@1500", "<R>", "<R>", "S1"),
    ] },
    Example { name: "399 ms with the thumb first", settings: SLOW_SOLO, lines: &[
        ("R@0", "", "", "S3"),
        ("21@500", "", "が", "S5"),
        ("Rup@899", "", "", "S6"),
        ("tick@1297", "", "", "S6"),
        ("tick@1298", "<R>か", "<BS><R>か", "S1"),
    ] },
    Example { name: "400 ms with the thumb first", settings: SLOW_SOLO, lines: &[
        ("R@0", "", "", "S3"),
        ("21@500", "", "が", "S5"),
        ("tick@900", "", "", "S5"),
        ("Rup@900", "が", "", "S1"),
    ] },
    Example { name: "7/12, a letter is held until it repeats", settings: USUAL, lines: &[
        ("21@0", "", "か", "S2"),
        ("21@99", "", "", "S2"),
        ("21@100", "か", "", "S1"),
        ("21@500", "", "", "S1"),
        ("21@530", "", "", "S1"),
        ("21up@540", "", "", "S1"),
        ("21@550", "", "か", "S2"),
        ("21up@560", "か", "", "S1"),
    ] },
    Example { name: "7/12, a repeat in every state", settings: SOLO, lines: &[
        ("21@0", "", "か", "S2"),
        ("21@10", "", "", "S2"),
        ("R@20", "", "", "S4"),
        ("21@30", "", "", "S4"),
        ("21up@35", "か", "", "S3"),
        ("24@50", "", "ざ", "S5"),
        ("24@60", "", "", "S5"),
        ("Rup@70", "", "", "S6"),
        ("24@80", "", "", "S6"),
        ("24@90", "<R>さ", "<BS><R>さ", "S1"),
        ("L@100", "", "", "S3"),
        ("24@110", "", "", "S3"),
        ("Lup@120", "<L>", "<L>", "S1"),
        ("24@130", "", "", "S1"),
    ] },
    Example { name: "7/12, a repeat does what is late first", settings: USUAL, lines: &[
        ("0@0", "", "．", "S2"),
        ("R@10", "", "", "S4"),
        ("0@25", "", "<BS>", "S1"),
        ("0up@30", "", "", "S1"),
        ("0@35", "", "．", "S2"),
    ] },
    Example { name: "7/12, ups that come alone", settings: USUAL, lines: &[
        ("21up@0", "", "", "S1"),
        ("21@10", "", "か", "S2"),
        ("24up@20", "", "", "S2"),
        ("R@30", "", "", "S4"),
        ("24up@40", "", "", "S4"),
        ("24up@50", "が", "<BS>が", "S1"),
        ("21up@60", "", "", "S1"),
        ("21up@60", "", "", "S1"),
        ("21@60", "", "か", "S2"),
    ] },
    Example { name: "7/12, a function key clears nothing", settings: USUAL, lines: &[
        ("21@0", "", "か", "S2"),
        ("F@10", "か", "", "S1"),
        ("21@20", "", "", "S1"),
        ("21up@30", "", "", "S1"),
        ("21@40", "", "か", "S2"),
    ] },
    Example { name: "7/12, six fingers", settings: USUAL, lines: &[
        ("10@0", "", "う", "S2"),
        ("11@0", "う", "し", "S2"),
        ("12@0", "し", "て", "S2"),
        ("13@0", "て", "け", "S2"),
        ("14@0", "け", "せ", "S2"),
        ("15@0", "せ", "は", "S2"),
        ("15@10", "", "", "S2"),
        ("10@20", "", "", "S2"),
        ("R@30", "", "", "S4"),
        ("11up@40", "", "", "S4"),
        ("16@50", "は", "お", "S5"),
    ] },
    Example { name: "9/12, a chord of two letters", settings: USUAL, lines: &[
        ("21@0", "", "か", "S2"),
        ("24@30", "", "さ", "S7"),
        ("21up@60", "一", "<BS><BS>一", "S1"),
        ("24up@70", "", "", "S1"),
    ] },
    Example { name: "9/12, a millisecond too late", settings: USUAL, lines: &[
        ("21@0", "", "か", "S2"),
        ("24@30", "", "さ", "S7"),
        ("21up@59", "", "", "S8"),
        ("tick@87", "", "", "S8"),
        ("24up@88", "かさ", "", "S1"),
    ] },
    Example { name: "9/12, the order of the keys is ignored", settings: USUAL, lines: &[
        ("24@0", "", "さ", "S2"),
        ("21@0", "", "か", "S7"),
        ("24up@0", "一", "<BS><BS>一", "S1"),
    ] },
    Example { name: "9/12, T_s ends it", settings: SLOW, lines: &[
        ("21@0", "", "か", "S2"),
        ("24@999", "", "さ", "S7"),
        ("tick@1098", "", "", "S7"),
        ("22@1099", "一", "<BS><BS>一た", "S2"),
    ] },
    Example { name: "9/12, both are let go", settings: USUAL, lines: &[
        ("21@0", "", "か", "S2"),
        ("24@50", "", "さ", "S7"),
        ("24up@51", "一", "<BS><BS>一", "S1"),
    ] },
    Example { name: "9/12, a function key", settings: USUAL, lines: &[
        ("21@0", "", "か", "S2"),
        ("24@50", "", "さ", "S7"),
        ("21up@60", "", "", "S8"),
        ("F@65", "一", "<BS><BS>一", "S1"),
        ("24up@66", "", "", "S1"),
        ("21@70", "", "か", "S2"),
        ("24@71", "", "さ", "S7"),
        ("F@71", "一", "<BS><BS>一", "S1"),
    ] },
    Example { name: "9/12, a key in no pair waits as before", settings: USUAL, lines: &[
        ("22@0", "", "た", "S2"),
        ("tick@99", "", "", "S2"),
        ("tick@100", "た", "", "S1"),
    ] },
    Example { name: "9/12, a key in some pair waits longer", settings: USUAL, lines: &[
        ("24@0", "", "さ", "S2"),
        ("tick@149", "", "", "S2"),
        ("tick@150", "さ", "", "S1"),
        ("22@200", "", "た", "S2"),
        ("21@299", "た", "か", "S2"),
        ("tick@448", "", "", "S2"),
        ("tick@449", "か", "", "S1"),
    ] },
    Example { name: "9/12, a third letter, the pair is nearer", settings: USUAL, lines: &[
        ("21@0", "", "か", "S2"),
        ("24@30", "", "さ", "S7"),
        ("22@61", "一", "<BS><BS>一た", "S2"),
    ] },
    Example { name: "9/12, equal gaps, a third letter that pairs", settings: USUAL, lines: &[
        ("21@0", "", "か", "S2"),
        ("24@30", "", "さ", "S7"),
        ("22@60", "か", "た", "S7"),
        // さ was pressed at 30: from 90 on the overlap would be half of the whole.
        ("24up@89", "", "", "S8"),
        ("tick@117", "", "", "S8"),
        ("tick@118", "さた", "", "S1"),
    ] },
    Example { name: "9/12, equal gaps, a third letter that does not", settings: USUAL, lines: &[
        ("21@0", "", "か", "S2"),
        ("24@30", "", "さ", "S7"),
        ("0@60", "かさ", "．", "S2"),
    ] },
    Example { name: "9/12, a thumb, the pair is nearer", settings: SOLO, lines: &[
        ("21@0", "", "か", "S2"),
        ("24@30", "", "さ", "S7"),
        ("R@61", "一", "<BS><BS>一", "S3"),
    ] },
    Example { name: "9/12, a thumb, equal gaps", settings: SOLO, lines: &[
        ("21@0", "", "か", "S2"),
        ("24@30", "", "さ", "S7"),
        ("21up@40", "", "", "S8"),
        // Due at 50: both are committed, and the thumb stands alone.
        ("R@50", "かさ", "", "S3"),
        ("Rup@51", "<R>", "<R>", "S1"),
        ("24up@52", "", "", "S1"),
        ("21@100", "", "か", "S2"),
        ("24@130", "", "さ", "S7"),
        ("R@160", "か", "", "S4"),
        // さ was pressed at 130, so the chord is due at 190.
        ("tick@189", "", "", "S4"),
        ("tick@190", "ざ", "<BS>ざ", "S1"),
    ] },
    Example { name: "9/12, K goes up soon after M", settings: USUAL, lines: &[
        ("21@0", "", "か", "S2"),
        ("24@30", "", "さ", "S7"),
        ("21up@50", "", "", "S8"),
        ("24up@69", "一", "<BS><BS>一", "S1"),
    ] },
    Example { name: "9/12, L decides in S8, and not N", settings: (100, 50, 60, 0), lines: &[
        ("21@0", "", "か", "S2"),
        ("24@90", "", "さ", "S7"),
        ("21up@110", "", "", "S8"),
        // 20 of 34 ms are under 60 percent, and far above N's 20.
        ("24up@124", "かさ", "", "S1"),
        ("21@200", "", "か", "S2"),
        ("24@290", "", "さ", "S7"),
        ("21up@310", "", "", "S8"),
        ("24up@323", "一", "<BS><BS>一", "S1"),
    ] },
    Example { name: "9/12, the first pressed again", settings: USUAL, lines: &[
        ("21@0", "", "か", "S2"),
        ("24@30", "", "さ", "S7"),
        ("21@35", "", "", "S7"),
        ("21up@40", "", "", "S8"),
        ("21up@41", "", "", "S8"),
        ("21@45", "か", "か", "S7"),
        ("tick@145", "一", "<BS><BS>一", "S1"),
    ] },
    Example { name: "9/12, the pair's character is shown already", settings: USUAL, lines: &[
        ("21@0", "", "か", "S2"),
        ("24@30", "", "さ", "S7"),
        ("21up@60", "か", "<BS>", "S1"),
    ] },
    Example { name: "9/12, due at 217", settings: USUAL, lines: &[
        ("21@0", "", "か", "S2"),
        ("24@99", "", "さ", "S7"),
        ("21up@158", "", "", "S8"),
        ("tick@216", "", "", "S8"),
        ("tick@217", "かさ", "", "S1"),
    ] },
    Example { name: "9/12, the 145 ms", settings: (50, 50, 50, 0), lines: &[
        ("21@0", "", "か", "S2"),
        ("24@49", "", "さ", "S7"),
        ("21up@97", "", "", "S8"),
        ("tick@144", "", "", "S8"),
        ("tick@145", "かさ", "", "S1"),
    ] },
];
