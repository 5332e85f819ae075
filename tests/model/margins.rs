//! What `explain --margins` prints of a log, by the model: how many decisions had which
//! margin, and how many presses each other setting would have committed otherwise, by
//! stepping the same events with it.

use crate::explain::Seen;
use crate::log::word;
use crate::model::{sign, step_with, Event, Item, Machine, Settings};
use crate::pairs::Lent;

/// A wrong rule for what is made here, so that the comparison must find something.
#[derive(Clone, Copy, PartialEq, Eq, Debug)]
pub enum MarginsSlip {
    /// A bar begins a millisecond later.
    BarsShifted,
    /// A decision that nothing turns is not counted.
    NoneUncounted,
    /// A percentage is cut off and not rounded.
    PercentCut,
    /// A pair's character answers one press.
    PairOnce,
    /// The step of T is 5 ms.
    SmallStep,
}

pub const MARGINS_SLIPS: [(&str, MarginsSlip); 5] = [
    ("bars-shifted", MarginsSlip::BarsShifted),
    ("none-uncounted", MarginsSlip::NoneUncounted),
    ("percent-cut", MarginsSlip::PercentCut),
    ("pair-once", MarginsSlip::PairOnce),
    ("small-step", MarginsSlip::SmallStep),
];

/// The least margin of each bar, and its name.
const BARS: [(u64, &str); 8] = [
    (0, "  1 ms         "),
    (2, "  2 ms         "),
    (3, "  3 to 4 ms    "),
    (5, "  5 to 9 ms    "),
    (10, "  10 to 19 ms  "),
    (20, "  20 to 49 ms  "),
    (50, "  50 to 99 ms  "),
    (100, "  from 100 ms  "),
];
const NONE: &str = "  none         ";
const LONGEST: u64 = 50;

/// T, J, L and solo.
type Numbers = (u16, u8, u8, u8);

/// All that is printed of these events.
pub fn text(slip: Option<MarginsSlip>, lent: &Lent, settings: Option<Numbers>, seen: &[Seen]) -> String {
    let events: Vec<Event> = seen.iter().map(|seen| seen.event).collect();
    let settings = settings.filter(|_| !events.is_empty());
    let trials: String =
        settings.map_or(String::new(), |settings| trials(slip, lent, settings, &events));
    format!(
        "decisions, by how much sooner or later would have decided otherwise:\n\
         {}presses that another setting would have committed otherwise:\n{trials}",
        bars(slip, seen)
    )
}

fn bars(slip: Option<MarginsSlip>, seen: &[Seen]) -> String {
    let decisions = seen.iter().filter(|seen| !seen.words.is_empty() || seen.margin.is_some());
    let margins: Vec<Option<u64>> =
        decisions.map(|seen| seen.margin.map(|margin| margin.ms)).collect();
    let more = u64::from(slip == Some(MarginsSlip::BarsShifted));
    let bar = |margin: u64| BARS.iter().rposition(|(least, _)| *least == 0 || least + more <= margin);
    let count = |place: usize| {
        margins.iter().flatten().filter(|margin| bar(**margin) == Some(place)).count() as u64
    };
    let none = match slip {
        Some(MarginsSlip::NoneUncounted) => 0,
        _ => margins.iter().filter(|margin| margin.is_none()).count() as u64,
    };
    let mut counts: Vec<(&str, u64)> =
        BARS.iter().enumerate().map(|(place, (_, name))| (*name, count(place))).collect();
    counts.push((NONE, none));
    let most = counts.iter().map(|(_, n)| *n).max().unwrap_or(0).max(1);
    let line = |(name, n): &(&str, u64)| {
        format!("{name}{} {n}\n", "#".repeat((n * LONGEST).div_ceil(most) as usize))
    };
    counts.iter().map(line).collect()
}

/// T 10 ms, J and L 5 percent down and up, where that is in range.
fn trials(slip: Option<MarginsSlip>, lent: &Lent, (t, j, l, solo): Numbers, events: &[Event]) -> String {
    let (t, j, l, solo) = (u64::from(t), u64::from(j), u64::from(l), u64::from(solo));
    let step = if slip == Some(MarginsSlip::SmallStep) { 5 } else { 10 };
    let own = answers(slip, lent, Settings::new(t, j, l, solo), events);
    let others = [
        ("T", t - step, Settings::new(t - step, j, l, solo)),
        ("T", t + step, Settings::new(t + step, j, l, solo)),
        ("J", j.saturating_sub(5), Settings::new(t, j.saturating_sub(5), l, solo)),
        ("J", j + 5, Settings::new(t, j + 5, l, solo)),
        ("L", l.saturating_sub(5), Settings::new(t, j, l.saturating_sub(5), solo)),
        ("L", l + 5, Settings::new(t, j, l + 5, solo)),
    ];
    let usable = others.into_iter().filter(|(_, _, settings)| settings.is_some());
    let line = |(name, value, settings): (&str, u64, Option<Settings>)| {
        let other = answers(slip, lent, settings, events);
        let presses = own.len().min(other.len()) as u64;
        let otherwise = own.iter().zip(&other).filter(|(a, b)| a != b).count() as u64;
        format!("  {name}={value}: {}\n", share(slip, otherwise, presses))
    };
    usable.map(line).collect()
}

/// `1 of 3 presses, 33.3 percent`.
fn share(slip: Option<MarginsSlip>, part: u64, whole: u64) -> String {
    let name = if whole == 1 { "press" } else { "presses" };
    let half = if slip == Some(MarginsSlip::PercentCut) { 0 } else { whole / 2 };
    let tenths = (part * 1000 + half).checked_div(whole);
    let percent = tenths.map_or(String::new(), |n| format!(", {}.{} percent", n / 10, n % 10));
    format!("{part} of {whole} {name}{percent}")
}

/// The character that answers each press, in order, and whether it is a pair's, which
/// answers two.
fn answers(
    slip: Option<MarginsSlip>,
    lent: &Lent,
    settings: Option<Settings>,
    events: &[Event],
) -> Vec<(u16, bool)> {
    let Some(settings) = settings else { return vec![] };
    let mut machine = Machine::fresh(settings);
    let mut all = vec![];
    for event in events {
        let Ok(step) = step_with(lent, &machine, *event) else { continue };
        for item in &step.items {
            let character = sign(item).map_or(0, word);
            match item {
                Item::Character { .. } => all.push((character, false)),
                Item::Together { .. } if slip == Some(MarginsSlip::PairOnce) => {
                    all.push((character, true));
                }
                Item::Together { .. } => all.extend([(character, true); 2]),
                Item::Mark(_) => {}
            }
        }
        machine = step.machine;
    }
    all
}
