//! What `explain` prints of a log, by the model: every row's stamp, event, state, deadline
//! and screen; its sentence; and what the same event would have done sooner or later, found
//! by trying shift after shift from the machine as it was when more than its last stamp
//! changed: no event comes before that. Nothing here knows where a rule turns.

use crate::live::{Flat, Wrong};
use crate::log::{event, read_record, split, text as word_text, word, Before, TAG_EVENT};
use crate::model::{
    shown, sign, step_formed, Event, Face, Held, Item, Machine, Resting, Sign, Slip, Step, Thumb,
    LARGEST_STAMP,
};
use crate::pairs::Lent;

use Resting::{S1, S2, S3, S4, S5, S6, S7, S8};

/// A wrong rule for what is made here, so that the comparison must find something.
#[derive(Clone, Copy, PartialEq, Eq, Debug)]
pub enum ExplainSlip {
    /// A row has the deadline of the state before its event.
    DueBefore,
    /// What was late stands in no row.
    LateUntold,
    /// How long after: counted from the last event, not from where the state began.
    SinceTheLast,
    /// Sooner only up to the last event.
    SoonerToTheLast,
    /// Sooner up to where the state began, whatever changed since.
    SoonerToTheState,
    /// What is to spare is the shift that decides otherwise.
    SpareIsSooner,
    /// Later is a millisecond more.
    OneMore,
    /// Another stamp in the state after it is another decision.
    StampsRegarded,
    /// A repeat is said to be a press.
    RepeatsPressed,
    /// Nine words of the line are shown.
    NineShown,
    /// An empty face is not counted.
    EmptyUncounted,
    /// A pair's character counts as one with a thumb.
    PairsAsChords,
    /// Of equal margins the last comes first.
    LastOfEqual,
    /// Six closest calls.
    SixCalls,
    /// A call's margin is what is to spare.
    SpareMargin,
    /// A decision that would have left a character open is no close one.
    OpenUncounted,
    /// Of two items the first alone is looked at.
    FirstAtStake,
    /// What is the same sooner and later is said twice.
    SaidTwice,
    /// A release that leaves a character open is no close call.
    EarlyUncounted,
    /// A press that joins another is no close call.
    JoinedUncounted,
    /// What led to an open release is not told with its character.
    LedUntold,
}

pub const EXPLAIN_SLIPS: [(&str, ExplainSlip); 21] = [
    ("due-before", ExplainSlip::DueBefore),
    ("late-untold", ExplainSlip::LateUntold),
    ("since-the-last", ExplainSlip::SinceTheLast),
    ("sooner-to-the-last", ExplainSlip::SoonerToTheLast),
    ("sooner-to-the-state", ExplainSlip::SoonerToTheState),
    ("spare-is-sooner", ExplainSlip::SpareIsSooner),
    ("one-more", ExplainSlip::OneMore),
    ("stamps-regarded", ExplainSlip::StampsRegarded),
    ("repeats-pressed", ExplainSlip::RepeatsPressed),
    ("nine-shown", ExplainSlip::NineShown),
    ("empty-uncounted", ExplainSlip::EmptyUncounted),
    ("pairs-as-chords", ExplainSlip::PairsAsChords),
    ("last-of-equal", ExplainSlip::LastOfEqual),
    ("six-calls", ExplainSlip::SixCalls),
    ("spare-margin", ExplainSlip::SpareMargin),
    ("open-uncounted", ExplainSlip::OpenUncounted),
    ("first-at-stake", ExplainSlip::FirstAtStake),
    ("said-twice", ExplainSlip::SaidTwice),
    ("early-uncounted", ExplainSlip::EarlyUncounted),
    ("joined-uncounted", ExplainSlip::JoinedUncounted),
    ("led-untold", ExplainSlip::LedUntold),
];

/// A wrong rule of the machine or of what is made here, if any.
#[derive(Clone, Copy, Default)]
pub struct Slips {
    pub machine: Option<Slip>,
    pub own: Option<ExplainSlip>,
}

impl Slips {
    fn own(&self, slip: ExplainSlip) -> bool {
        self.own == Some(slip)
    }
}

/// All that `explain` prints of a log; the number and the offset that the log is answered;
/// and which events were tried at which stamps.
pub struct Explained {
    pub text: String,
    pub number: u32,
    pub offset: u64,
    pub lent: Lent,
    /// T, J, L and solo, if the log has them.
    pub settings: Option<(u16, u8, u8, u8)>,
    pub rows: u64,
    /// The accepted events, for a picture of them.
    pub seen: Vec<Seen>,
    /// What `--why` prints of each committed character or mark.
    pub reasons: Vec<String>,
    pub tried: Vec<Tried>,
    /// What came up, for counting.
    pub kinds: Vec<&'static str>,
}

/// An accepted event: whether it is a repeat of a held key, from when to when the time lasted
/// that decided, what it committed (an empty face as 0), how close that was, whether it left
/// open what a release means, and the deadline after it.
#[derive(Clone)]
pub struct Seen {
    pub event: Event,
    pub repeat: bool,
    pub began: Option<u64>,
    pub until: u64,
    pub words: Vec<u16>,
    pub margin: Option<Margin>,
    pub open: bool,
    pub due: Option<u64>,
}

/// An event at a machine, and the words that it commits there.
pub struct Tried {
    pub flat: Flat,
    pub event: Event,
    pub words: Vec<u16>,
}

/// Words of the line that are shown, and closest calls.
const TAIL: usize = 8;
const CALLS: usize = 5;

const HEAD: &str =
    "stamp         event    late       state due           screen                 what and why\n";

/// The columns of a stamp: every one that is accepted, and every deadline, has a blank behind it.
const STAMP: usize = 14;

/// What `explain` prints. Where it printed a shift that is too far to try all before it,
/// that one is tried first: `printed` is its output, line by line.
pub fn explain(slips: Slips, log: &[u8], printed: &str) -> Explained {
    let mut all = Whole::new(slips);
    let mut before = Before::default();
    let mut lines = printed.lines().skip(1);
    let number = loop {
        let rest = &log[before.offset as usize..];
        if before.machine.is_some() && rest.is_empty() {
            break 0;
        }
        let record = split(rest).filter(|(tag, _)| *tag == TAG_EVENT);
        let event = record.and_then(|(_, body)| event(body).ok());
        if let Some((machine, event)) = before.machine.zip(event) {
            all.row(&before.lent, &machine, event, lines.next().unwrap_or(""));
        }
        // No step gives more than two words.
        match read_record(slips.machine, &before, rest, &mut [0; 2]) {
            Ok(read) => before.go_on(read),
            Err(number) => break number,
        }
    };
    all.end(number, &before)
}

/// What is made of a log.
struct Whole {
    slips: Slips,
    text: String,
    line: Vec<u16>,
    events: u64,
    /// Committed, with a thumb, of two letters, marks.
    counts: [u64; 4],
    calls: Vec<Call>,
    seen: Vec<Seen>,
    reasons: Vec<String>,
    tried: Vec<Tried>,
    kinds: Vec<&'static str>,
    /// When more than the last stamp changed.
    since: u64,
    /// What led to the state, as `--why` tells it.
    led: String,
}

/// A decision that was close: the number of its character, if it committed one.
struct Call {
    margin: Margin,
    number: Option<u64>,
    word: u16,
    stamp: u64,
}

impl Whole {
    fn new(slips: Slips) -> Whole {
        Whole {
            slips,
            text: HEAD.to_string(),
            line: vec![],
            events: 0,
            counts: [0; 4],
            calls: vec![],
            seen: vec![],
            reasons: vec![],
            tried: vec![],
            kinds: vec![],
            since: 0,
            led: String::new(),
        }
    }

    /// The row of an event.
    fn row(&mut self, lent: &Lent, machine: &Machine, event: Event, printed: &str) {
        let front = format!("{}{}", column(&event.stamp.to_string(), STAMP), column(&name(event), 9));
        match step_formed(lent, machine, event) {
            Err(number) => {
                self.text += &format!("{front}refused {number}: {}\n", meaning(number));
            }
            Ok(step) => {
                let case = Case { slips: self.slips, lent, machine, since: self.since, event, step: &step };
                let shifts = case.shifts(printed);
                self.count(&case, &shifts);
                self.seen.push(case.seen(&shifts));
                self.line.extend(case.words(&step.items).iter().filter(|word| **word != 0));
                let sentence = case.sentence(&shifts);
                let led = match machine.resting {
                    S6 { .. } | S8 { .. } if !self.slips.own(ExplainSlip::LedUntold) => &self.led,
                    _ => "",
                };
                for _ in &step.items {
                    let number = self.reasons.len() + 1;
                    let reason = format!("{led}character {number}, at {}: {sentence}\n", event.stamp);
                    self.reasons.push(reason);
                }
                self.text += &format!("{front}{}{sentence}\n", case.columns(&self.line));
                self.try_all(&case, &shifts);
                if !case.same_state() {
                    self.led = format!("at {}: {sentence}\n", event.stamp);
                }
                if (Machine { last: event.stamp, ..*machine }) != step.machine || !step.items.is_empty() {
                    self.since = event.stamp;
                }
            }
        }
    }

    fn count(&mut self, case: &Case, shifts: &Shifts) {
        self.events += 1;
        let words = case.words(&case.step.items);
        if let Some((margin, place)) = case.margin(shifts) {
            let stamp = case.event.stamp;
            let (number, word) = match words.get(place) {
                Some(word) => (Some(self.counts[0] + 1 + place as u64), *word),
                None => (None, case.words(&case.items_at(margin.from(stamp)))[0]),
            };
            self.calls.push(Call { margin, number, word, stamp });
        }
        for item in &case.step.items {
            let empty = sign(item).is_none() && self.slips.own(ExplainSlip::EmptyUncounted);
            self.counts[0] += u64::from(!empty);
            match item {
                Item::Character { face: Face::Plain, .. } => {}
                Item::Character { .. } => self.counts[1] += u64::from(!empty),
                Item::Together { .. } if self.slips.own(ExplainSlip::PairsAsChords) => {
                    self.counts[1] += 1;
                }
                Item::Together { .. } => self.counts[2] += 1,
                Item::Mark(_) => self.counts[3] += 1,
            }
        }
    }

    /// Each shift that decides otherwise, and the last one that does not.
    fn try_all(&mut self, case: &Case, shifts: &Shifts) {
        let stamp = case.event.stamp;
        let later = shifts.later.iter().flat_map(|n| [stamp + n, stamp + n - 1]);
        let sooner = shifts.sooner.iter().flat_map(|n| [stamp - n, stamp - n + 1]);
        for stamp in later.chain(sooner) {
            let (flat, event) = (case.flat(), Event { stamp, ..case.event });
            self.tried.push(Tried { flat, event, words: case.words(&case.items_at(stamp)) });
        }
        self.kinds.extend(case.kinds(shifts));
    }

    /// What stands below the table.
    fn end(mut self, number: u32, before: &Before) -> Explained {
        self.text += &match number {
            0 => format!("waiting {}\n", before.waiting()),
            _ => format!("refused {number} at {}\n", before.offset),
        };
        let [committed, chords, pairs, marks] = self.counts;
        let (events, marks) = (counted(self.events, "event"), counted(marks, "mark"));
        self.text += &format!(
            "{events} accepted; {committed} committed: {chords} with a thumb, {pairs} of two letters, {marks}\n"
        );
        if self.slips.own(ExplainSlip::LastOfEqual) {
            self.calls.reverse();
        }
        // Of equal margins the order stays.
        self.calls.sort_by_key(|call| call.margin.ms);
        let most = CALLS + usize::from(self.slips.own(ExplainSlip::SixCalls));
        if !self.calls.is_empty() {
            self.text +=
                "closest calls, by how much sooner or later would have decided otherwise:\n";
        }
        for Call { margin, number, word, stamp } in self.calls.iter().take(most) {
            let word = shown_word(*word);
            let stake = match number {
                Some(number) => format!("character {number}, {word}"),
                None => format!("{word} not yet"),
            };
            self.text += &format!("  {}: {stake}, at {stamp}\n", margin.text());
        }
        Explained {
            text: self.text,
            number,
            offset: before.offset,
            lent: before.lent.clone(),
            settings: before.machine.map(|machine| machine.settings.numbers()),
            rows: self.events,
            seen: self.seen,
            reasons: self.reasons,
            tried: self.tried,
            kinds: self.kinds,
        }
    }
}

/// How few milliseconds would have turned a decision, and on which side.
#[derive(Clone, Copy, PartialEq, Eq, Debug)]
pub struct Margin {
    pub ms: u64,
    pub later: bool,
}

impl Margin {
    /// The other stamp.
    fn from(self, stamp: u64) -> u64 {
        if self.later {
            stamp + self.ms
        } else {
            stamp - self.ms
        }
    }

    pub fn text(self) -> String {
        format!("{} ms {}", self.ms, if self.later { "later" } else { "sooner" })
    }
}

// ---- Names and columns ----

/// A count and what is counted.
fn counted(n: u64, name: &str) -> String {
    format!("{n} {name}{}", if n == 1 { "" } else { "s" })
}

/// An event as a row has it, in notation; what has no name there by its numbers.
fn name(event: Event) -> String {
    let Event { kind, key, .. } = event;
    let side = if key == 0 { "L" } else { "R" };
    match kind {
        _ if !has_name(event) => format!("kind {kind} key {key}"),
        1 => format!("{key}"),
        2 => format!("{key} up"),
        3 => side.to_string(),
        4 => format!("{side} up"),
        5 => "fn".to_string(),
        _ => "tick".to_string(),
    }
}

/// Whether there is such a key, thumb or none, if it is a key's then any.
fn has_name(Event { kind, key, .. }: Event) -> bool {
    match kind {
        1 | 2 => true,
        3 | 4 => key <= 1,
        5 | 6 => key == 0,
        _ => false,
    }
}

fn meaning(number: u32) -> &'static str {
    match number {
        3 => "kind or key not allowed",
        4 => "stamp above the largest",
        5 => "stamp before the last accepted one",
        _ => "press of a new key while 6 are held",
    }
}

/// A word as it is printed, an empty face as `-`.
fn shown_word(word: u16) -> String {
    match word {
        0 => "-".to_string(),
        _ => word_text(word),
    }
}

/// The columns that a word takes.
fn width(word: u16) -> usize {
    match word {
        0 => 1,
        1 | 2 => 3,
        _ => 2,
    }
}

/// Filled up with blanks, at least one.
fn padded(text: String, used: usize, column: usize) -> String {
    text + &" ".repeat(column.saturating_sub(used).max(1))
}

fn column(text: &str, column: usize) -> String {
    padded(text.to_string(), text.len(), column)
}

fn state(resting: &Resting) -> &'static str {
    match resting {
        S1 => "S1",
        S2 { .. } => "S2",
        S3 { .. } => "S3",
        S4 { .. } => "S4",
        S5 { .. } => "S5",
        S6 { .. } => "S6",
        S7 { .. } => "S7",
        S8 { .. } => "S8",
    }
}

fn thumb_name(thumb: Thumb) -> &'static str {
    match thumb {
        Thumb::Left => "left thumb",
        Thumb::Right => "right thumb",
    }
}

/// The stamp at which a state began, and the words for what began it; none of S1.
fn began(resting: &Resting) -> Option<(u64, String)> {
    let key_name = |key: u8| format!("key {key}");
    match *resting {
        S1 => None,
        S2 { key, m } => Some((m, key_name(key))),
        S3 { thumb, o } | S4 { thumb, o, .. } => Some((o, format!("the {}", thumb_name(thumb)))),
        S5 { key, m, .. } => Some((m, key_name(key))),
        S6 { thumb, r, .. } => Some((r, format!("the {}'s release", thumb_name(thumb)))),
        S7 { second, k, .. } => Some((k, key_name(second))),
        S8 { key, r, .. } => Some((r, format!("key {key}'s release"))),
    }
}

/// A state with other stamps.
fn restamped(resting: Resting, at: impl Fn(u64) -> u64) -> Resting {
    match resting {
        S1 => S1,
        S2 { key, m } => S2 { key, m: at(m) },
        S3 { thumb, o } => S3 { thumb, o: at(o) },
        S4 { key, m, thumb, o } => S4 { key, m: at(m), thumb, o: at(o) },
        S5 { thumb, o, key, m } => S5 { thumb, o: at(o), key, m: at(m) },
        S6 { thumb, o, key, m, r } => S6 { thumb, o: at(o), key, m: at(m), r: at(r) },
        S7 { key, m, second, k } => S7 { key, m: at(m), second, k: at(k) },
        S8 { key, m, second, k, r } => S8 { key, m: at(m), second, k: at(k), r: at(r) },
    }
}

/// The first stamp of a state.
fn first_stamp(resting: &Resting) -> u64 {
    match *resting {
        S1 => 0,
        S2 { m, .. } | S4 { m, .. } | S7 { m, .. } | S8 { m, .. } => m,
        S3 { o, .. } | S5 { o, .. } | S6 { o, .. } => o,
    }
}

// ---- One accepted event ----

/// An event at the machine before it, and what it did.
struct Case<'a> {
    slips: Slips,
    lent: &'a Lent,
    machine: &'a Machine,
    /// When more than the machine's last stamp changed.
    since: u64,
    event: Event,
    step: &'a Step,
}

/// How many milliseconds later, and sooner, the same event decides otherwise.
struct Shifts {
    later: Option<u64>,
    sooner: Option<u64>,
    /// Later, but above the largest stamp: such an event is refused.
    never: Option<u64>,
    /// Sooner, however long ago the machine changed.
    ever: Option<u64>,
}

/// What an event decides: the items and the state after it.
type Decision = (Vec<Item>, Resting);

/// All shifts so far behind the deadline are tried, but no more than so many altogether;
/// and of those beyond so many, spread over them, and so many of the last.
const BEHIND: u64 = 50;
const NEAR: u64 = 2_000;
const SPREAD: u64 = 500;
/// No wait is as long.
const WAITS: u64 = 10_000_000_000;

impl Case<'_> {
    fn words(&self, items: &[Item]) -> Vec<u16> {
        items.iter().map(|item| sign(item).map_or(0, word)).collect()
    }

    /// The deadline of the state that a machine is in.
    fn due(&self, machine: &Machine) -> Option<u64> {
        let begun = begun(machine);
        let distance = begun.distance_with(self.lent, begun.last).ok()??;
        Some(begun.last.saturating_add_signed(distance))
    }

    fn is_late(&self) -> bool {
        self.due(self.machine).is_some_and(|due| due <= self.event.stamp)
    }

    /// The machine that a shifted event finds, as it was when more than its last stamp changed.
    fn found(&self) -> Machine {
        match self.slips.own {
            Some(ExplainSlip::SoonerToTheLast) => *self.machine,
            Some(ExplainSlip::SoonerToTheState) => begun(self.machine),
            _ => Machine { last: self.since, ..*self.machine },
        }
    }

    /// Whether the state is the same after the event.
    fn same_state(&self) -> bool {
        state(&self.machine.resting) == state(&self.step.machine.resting)
    }

    fn flat(&self) -> Flat {
        let (t, j, l, solo) = self.machine.settings.numbers();
        Flat::of((t, j, l, solo), &self.found())
    }

    fn items_at(&self, stamp: u64) -> Vec<Item> {
        self.decided(stamp).map_or(vec![], |(items, _)| items)
    }

    /// How far the stamps are moved back to try others: near the largest one, so that no
    /// event is refused because of it (8/12).
    fn back(&self) -> u64 {
        match self.event.stamp > LARGEST_STAMP - WAITS {
            true => first_stamp(&self.machine.resting),
            false => 0,
        }
    }

    fn decided(&self, stamp: u64) -> Option<Decision> {
        self.decided_from(self.found(), stamp)
    }

    fn decided_from(&self, machine: Machine, stamp: u64) -> Option<Decision> {
        let back = self.back();
        let resting = restamped(machine.resting, |at| at - back);
        let machine = Machine { resting, last: machine.last - back, ..machine };
        let event = Event { stamp: stamp - back, ..self.event };
        let step = step_formed(self.lent, &machine, event).ok()?;
        let resting = match self.slips.own(ExplainSlip::StampsRegarded) {
            true => step.machine.resting,
            false => restamped(step.machine.resting, |_| 0),
        };
        Some((step.items, resting))
    }

    // ---- Sooner and later ----

    fn shifts(&self, printed: &str) -> Shifts {
        let stamp = self.event.stamp;
        let (found, begun) = (self.found(), begun(self.machine));
        let due = self.due(self.machine).unwrap_or(0);
        let near = (due.saturating_sub(stamp) + BEHIND).min(NEAR);
        let told = |words: &[&str]| words.iter().find_map(|word| number_before(printed, word));
        let later = told(&[" ms later", " ms too early"]);
        let sooner = told(&[" ms sooner", " ms to spare"]);
        let rests = self.machine.resting != S1;
        let more = u64::from(self.slips.own(ExplainSlip::OneMore));
        let most = (LARGEST_STAMP - (stamp - self.back())).min(WAITS);
        let turned = match rests {
            true => self.first_other(found, most, near, later, |n| stamp + n).map(|n| n + more),
            // Nothing is compared with anything.
            false => None,
        };
        let (later, never) = match turned {
            Some(n) if stamp + n > LARGEST_STAMP => (None, turned),
            _ => (turned, None),
        };
        let back_to = |machine: Machine| match rests {
            true => {
                let most = stamp - machine.last.min(stamp);
                self.first_other(machine, most, NEAR, sooner, |n| stamp - n)
            }
            false => None,
        };
        Shifts { later, sooner: back_to(found), never, ever: back_to(begun) }
    }

    /// The first shift up to a limit that decides otherwise: all are tried up to `near`, and
    /// behind them a few; the one told, or one more, first.
    fn first_other(
        &self,
        machine: Machine,
        limit: u64,
        near: u64,
        told: Option<u64>,
        at: impl Fn(u64) -> u64,
    ) -> Option<u64> {
        let here = self.decided_from(machine, self.event.stamp);
        let other = |n: &u64| self.decided_from(machine, at(*n)) != here;
        let near = near.min(limit);
        if let Some(n) = (1..=near).find(other) {
            return Some(n);
        }
        let told = told.into_iter().flat_map(|n| [n, n + 1]);
        let doubled = (1..40).map(|power| near << power);
        let far = told.chain(doubled).filter(|n| (near + 1..=limit).contains(n));
        let last = far.chain([limit]).find(|n| *n > near && other(n))?;
        let spread = (last - near) / SPREAD + 1;
        let between = (near + 1..last).step_by(spread as usize);
        let beside = last.saturating_sub(NEAR).max(near + 1)..last;
        match between.chain(beside).filter(other).min() {
            // The last one that is the same lies between.
            Some(n) => Some(halved(near, n, other)),
            None => Some(last),
        }
    }

    /// How close the decision of an event was: the fewest milliseconds at which one of its
    /// items is not committed, and the place of that item; or at which something is, if it
    /// committed nothing and led to another state.
    fn margin(&self, shifts: &Shifts) -> Option<(Margin, usize)> {
        let stamp = self.event.stamp;
        let later = shifts.later.and_then(|ms| Some((Margin { ms, later: true }, self.turned(stamp + ms)?)));
        let sooner = shifts.sooner.and_then(|ms| Some((Margin { ms, later: false }, self.turned(stamp - ms)?)));
        let spare = self.slips.own(ExplainSlip::SpareMargin) && self.overlap();
        let sooner = sooner.map(|(margin, place)| {
            (Margin { ms: margin.ms - u64::from(spare), ..margin }, place)
        });
        sooner.into_iter().chain(later).min_by_key(|(margin, _)| margin.ms)
    }

    /// The first item that the event does not commit at another stamp; none where it commits
    /// nothing there and leaves all as it was.
    fn turned(&self, at: u64) -> Option<usize> {
        let (own, others) = (&self.step.items, self.items_at(at));
        if own.is_empty() {
            let untold = match self.leaves_open() {
                true => ExplainSlip::EarlyUncounted,
                false => ExplainSlip::JoinedUncounted,
            };
            let counts = !self.same_state() && !others.is_empty() && !self.slips.own(untold);
            return counts.then_some(0);
        }
        if others.is_empty() && (self.slips.own(ExplainSlip::OpenUncounted) || self.unchanged_at(at)) {
            return None;
        }
        let first_only = self.slips.own(ExplainSlip::FirstAtStake);
        let most = if first_only { own.len().min(1) } else { own.len() };
        (0..most).find(|place| others.get(*place) != Some(&own[*place]))
    }

    /// Whether the first of two was let go, and what that means is still open.
    fn leaves_open(&self) -> bool {
        matches!(self.step.machine.resting, S6 { .. } | S8 { .. })
    }

    /// Whether the event at another stamp leaves what rested as it was, stamps apart.
    fn unchanged_at(&self, stamp: u64) -> bool {
        self.decided(stamp).is_some_and(|(_, after)| after == restamped(self.machine.resting, |_| 0))
    }

    // ---- The row ----

    /// What was late, the state and its deadline, and the screen.
    fn columns(&self, line: &[u16]) -> String {
        let late = match self.is_late() && !self.slips.own(ExplainSlip::LateUntold) {
            true => self.words(&self.step.items),
            false => vec![],
        };
        let told = late.iter().map(|word| shown_word(*word)).collect();
        let late = padded(told, late.iter().map(|word| width(*word)).sum(), 11);
        let after = match self.slips.own(ExplainSlip::DueBefore) {
            true => self.machine,
            false => &self.step.machine,
        };
        let due = self.due(after).map_or("-".to_string(), |due| due.to_string());
        let screen = self.screen(line);
        let state = column(state(&self.step.machine.resting), 6);
        format!("{late}{state}{}{screen}", column(&due, STAMP))
    }

    /// The end of the line, and what waits in brackets.
    fn screen(&self, line: &[u16]) -> String {
        let tail = TAIL + usize::from(self.slips.own(ExplainSlip::NineShown));
        let end = &line[line.len().saturating_sub(tail)..];
        let waiting = shown(&self.step.machine.resting);
        let waiting: Vec<u16> = waiting.into_iter().map(|sign: Sign| word(sign)).collect();
        let used: usize = end.iter().chain(&waiting).map(|word| width(*word)).sum();
        let text = |words: &[u16]| words.iter().map(|word| shown_word(*word)).collect::<String>();
        match waiting.is_empty() {
            true => padded(text(end), used, 23),
            false => padded(format!("{}[{}]", text(end), text(&waiting)), used + 2, 23),
        }
    }

    // ---- The sentence ----

    /// The key of a down or an up that counts as one, and not as a tick.
    fn acting_key(&self) -> Option<u8> {
        let Event { kind, key, .. } = self.event;
        ((kind == 1 && !self.held().has(key)) || (kind == 2 && self.held().has(key))).then_some(key)
    }

    fn held(&self) -> Held {
        self.machine.held
    }

    fn as_tick(&self) -> bool {
        self.event.kind <= 2 && self.acting_key().is_none()
    }

    fn thumb(&self) -> Thumb {
        if self.event.key == 0 {
            Thumb::Left
        } else {
            Thumb::Right
        }
    }

    /// What happened; `resting` is the state that it met.
    fn what(&self, resting: &Resting) -> String {
        let Event { kind, key, .. } = self.event;
        let held = self.held().has(key);
        let thumb = self.thumb();
        let set = match *resting {
            S3 { thumb: set, .. } | S4 { thumb: set, .. } | S5 { thumb: set, .. } => set == thumb,
            _ => false,
        };
        match kind {
            1 if held && !self.slips.own(ExplainSlip::RepeatsPressed) => format!("key {key} repeated"),
            1 => format!("key {key} pressed"),
            2 if held => format!("key {key} released"),
            2 => format!("key {key}, not held, released"),
            3 if set => format!("{} pressed again", thumb_name(thumb)),
            3 => format!("{} pressed", thumb_name(thumb)),
            4 => format!("{} released", thumb_name(thumb)),
            5 => "function key pressed".to_string(),
            _ => "tick".to_string(),
        }
    }

    /// Whether the event is of what began the state by its press.
    fn is_own(&self) -> bool {
        let Event { kind, key, .. } = self.event;
        match self.machine.resting {
            S2 { key: own, .. } | S5 { key: own, .. } | S7 { second: own, .. } => {
                kind <= 2 && key == own
            }
            S3 { thumb, .. } | S4 { thumb, .. } => (3..=4).contains(&kind) && self.thumb() == thumb,
            _ => false,
        }
    }

    fn sentence(&self, shifts: &Shifts) -> String {
        let mut text = match self.is_late() {
            true => self.late_then(),
            false => self.in_time(shifts),
        };
        if self.as_tick() {
            text += ", as a tick";
        }
        text + &self.otherwise(shifts)
    }

    /// What was late, and then the event, which meets nothing.
    fn late_then(&self) -> String {
        let resting = &self.machine.resting;
        let (start, what) = began(resting).unwrap_or_default();
        let wait = self.due(self.machine).unwrap_or(start) - start;
        let missed = match *resting {
            S1 | S2 { .. } | S3 { .. } => format!("nothing joined {what} within {wait} ms"),
            S4 { key, .. } | S6 { key, .. } | S8 { second: key, .. } => {
                format!("key {key} was still down {wait} ms after {what}")
            }
            S5 { thumb, .. } => {
                format!("the {} was still down {wait} ms after {what}", thumb_name(thumb))
            }
            S7 { .. } => format!("both keys were still down {wait} ms after {what}"),
        };
        let items = &self.step.items;
        let committed = match items.is_empty() {
            true => String::new(),
            false => format!(": {}", self.items(items)),
        };
        format!("{missed}{committed}; then {}", self.what(&S1))
    }

    /// The event, how long after what, what was compared, and what came of it.
    fn in_time(&self, shifts: &Shifts) -> String {
        let resting = &self.machine.resting;
        let stamp = self.event.stamp;
        let when = match began(resting) {
            None => String::new(),
            Some((start, what)) => {
                let since = match self.slips.own(ExplainSlip::SinceTheLast) {
                    true => self.machine.last,
                    false => start,
                };
                match self.is_own() {
                    true => format!(" after {} ms", stamp - since),
                    false => format!(" {} ms after {what}", stamp - since),
                }
            }
        };
        let items = &self.step.items;
        let outcome = match items.is_empty() {
            true => String::new(),
            false => format!(": {}", self.items(items)),
        };
        format!("{}{when}{}{outcome}", self.what(resting), self.compared(shifts))
    }

    /// Whether an overlap is measured: M goes up in S4 or S7, O in S5, in time.
    fn overlap(&self) -> bool {
        let Event { kind, key, .. } = self.event;
        let measured = match self.machine.resting {
            S4 { key: m, .. } | S7 { key: m, .. } => kind == 2 && self.acting_key() == Some(m),
            S5 { thumb, .. } => kind == 4 && thumb == if key == 0 { Thumb::Left } else { Thumb::Right },
            _ => false,
        };
        measured && !self.is_late()
    }

    /// The numbers that the rule compares.
    fn compared(&self, shifts: &Shifts) -> String {
        let Event { kind, stamp, .. } = self.event;
        let letter = kind == 1 && self.acting_key().is_some();
        let third = letter || kind == 3;
        match self.machine.resting {
            _ if self.overlap() => self.needed(shifts),
            S4 { key, m, o, .. } if letter => {
                let nearer = if o - m > stamp - o { "nearer" } else { "no nearer" };
                let gap = o - m;
                format!(
                    ", which came {gap} ms after key {key}; the thumb is {nearer} to this press than to key {key}"
                )
            }
            S5 { thumb, o, key, m } if kind == 3 && thumb != self.thumb() => {
                let nearer = if m - o >= stamp - m { "no nearer" } else { "nearer" };
                let (gap, thumb) = (m - o, thumb_name(thumb));
                format!(
                    ", which came {gap} ms after the {thumb}; key {key} is {nearer} to the {thumb} than to this press"
                )
            }
            S7 { key, m, second, k } if third => self.stays((key, m), (second, k)),
            S8 { key, m, second, k, .. } if third => {
                let stays = self.stays((key, m), (second, k));
                format!(" and {} ms after key {second}{stays}", stamp - k)
            }
            S8 { second, k, r, .. } if kind == 2 && self.acting_key() == Some(second) => {
                let (_, _, l, _) = self.machine.settings.numbers();
                let (both, whole) = (r - k, stamp - k);
                format!(
                    "; both keys were down for {both} of the second one's {whole} ms; {l} percent were needed"
                )
            }
            _ => String::new(),
        }
    }

    /// Whether the second key stays with the first where a third press comes.
    fn stays(&self, (key, m): (u8, u64), (second, k): (u8, u64)) -> String {
        let (gap, next) = (k - m, self.event.stamp - k);
        let nearer = if gap < next { "nearer" } else { "no nearer" };
        format!(
            ", which came {gap} ms after key {key}; key {second} is {nearer} to key {key} than to this press"
        )
    }

    /// From which overlap on it suffices.
    fn needed(&self, shifts: &Shifts) -> String {
        let start = began(&self.machine.resting).map_or(0, |(start, _)| start);
        let stamp = self.event.stamp;
        let enough = match (shifts.later.or(shifts.never), shifts.ever) {
            (Some(later), _) => Some(stamp + later),
            (_, Some(sooner)) => Some(stamp - sooner + 1),
            _ => None,
        };
        enough.map_or(String::new(), |enough| format!("; {} ms were needed", enough - start))
    }

    fn items(&self, items: &[Item]) -> String {
        let one = |word: &u16| match word {
            0 => "an empty face".to_string(),
            _ => shown_word(*word),
        };
        match items {
            [] => "nothing yet".to_string(),
            _ => self.words(items).iter().map(one).collect(),
        }
    }

    /// What the event would have committed later, and sooner.
    fn otherwise(&self, shifts: &Shifts) -> String {
        let stamp = self.event.stamp;
        let (later, sooner) = (shifts.later.map(|n| stamp + n), shifts.sooner.map(|n| stamp - n));
        match (later.zip(sooner), self.overlap()) {
            (_, true) => self.overlap_otherwise(shifts),
            (Some((later, sooner)), _) if self.reads_same(later, sooner) => {
                format!("; {} if {} or {}", self.instead(sooner), self.away(sooner), self.away(later))
            }
            _ => {
                let all = later.into_iter().chain(sooner);
                all.map(|at| format!("; {} if {}", self.instead(at), self.away(at))).collect()
            }
        }
    }

    /// What an overlap lacks, or has to spare.
    fn overlap_otherwise(&self, shifts: &Shifts) -> String {
        let stamp = self.event.stamp;
        let not = |at: u64| match &self.items_at(at)[..] {
            [] => String::new(),
            items => format!(", not {}", self.items(items)),
        };
        let wanted = |at: u64| match (&self.items_at(at)[..], self.step.items.is_empty()) {
            ([], true) => ": nothing yet".to_string(),
            (items, true) => format!(": {} not yet", self.items(items)),
            (_, false) => not(at),
        };
        let later = shifts.later.map(|n| format!("{}; {n} ms too early", wanted(stamp + n)));
        let sooner = shifts.sooner.map(|n| {
            let spare = n - u64::from(!self.slips.own(ExplainSlip::SpareIsSooner));
            format!("{}; {spare} ms to spare", not(stamp - n))
        });
        later.into_iter().chain(sooner).collect()
    }

    fn away(&self, at: u64) -> String {
        let stamp = self.event.stamp;
        Margin { ms: at.abs_diff(stamp), later: at > stamp }.text()
    }

    fn reads_same(&self, one: u64, other: u64) -> bool {
        let same = self.items(&self.items_at(one)) == self.items(&self.items_at(other));
        same && !self.slips.own(ExplainSlip::SaidTwice)
    }

    /// What the event decides at another stamp: what it commits, and whose that is where it
    /// reads as what the event itself committed; or what waits together then.
    fn instead(&self, at: u64) -> String {
        let Some((items, after)) = self.decided(at) else { return String::new() };
        let text = self.items(&items);
        match (&items[..], after) {
            ([], _) if self.unchanged_at(at) => text,
            ([], S4 { key, thumb, .. } | S5 { key, thumb, .. }) => {
                format!("key {key} and the {} together", thumb_name(thumb))
            }
            ([], S7 { key, second, .. }) => format!("key {key} and key {second} together"),
            ([Item::Character { key, .. }], _) if text == self.items(&self.step.items) => {
                format!("{text} for key {key}")
            }
            ([Item::Together { .. }], _) if text == self.items(&self.step.items) => {
                format!("{text} for both keys")
            }
            _ => text,
        }
    }

    /// What a picture needs.
    fn seen(&self, shifts: &Shifts) -> Seen {
        Seen {
            event: self.event,
            repeat: self.event.kind == 1 && self.held().has(self.event.key),
            began: self.measured_from(),
            until: self.due(self.machine).unwrap_or(self.event.stamp).min(self.event.stamp),
            words: self.words(&self.step.items),
            margin: self.margin(shifts).map(|(margin, _)| margin),
            open: self.leaves_open(),
            due: self.due(&self.step.machine),
        }
    }

    /// Where the time begins that decides: in S8 with the second key, where the event is in
    /// time.
    fn measured_from(&self) -> Option<u64> {
        match self.machine.resting {
            S8 { k, .. } if !self.is_late() => Some(k),
            _ => began(&self.machine.resting).map(|(start, _)| start),
        }
    }

    /// What came up, for counting.
    fn kinds(&self, shifts: &Shifts) -> Vec<&'static str> {
        let mut kinds = vec![match (self.is_late(), self.machine.resting) {
            (false, S1) => "S1",
            (false, S2 { .. }) => "S2",
            (false, S3 { .. }) => "S3",
            (false, S4 { .. }) => "S4",
            (false, S5 { .. }) => "S5",
            (false, S6 { .. }) => "S6",
            (false, S7 { .. }) => "S7",
            (false, S8 { .. }) => "S8",
            (true, S2 { .. }) => "S2-late",
            (true, S3 { .. }) => "S3-late",
            (true, S4 { .. }) => "S4-late",
            (true, S5 { .. }) => "S5-late",
            (true, S6 { .. }) => "S6-late",
            (true, S7 { .. }) => "S7-late",
            (true, _) => "S8-late",
        }];
        let overlap = self.overlap();
        kinds.extend(shifts.later.map(|_| if overlap { "too-early" } else { "later" }));
        kinds.extend(shifts.sooner.map(|_| if overlap { "to-spare" } else { "sooner" }));
        if shifts.later.is_some() && shifts.sooner.is_some() {
            kinds.push("both");
        }
        if self.as_tick() {
            kinds.push("as-a-tick");
        }
        kinds
    }
}

/// What comes up in rows.
pub const KINDS: [&str; 21] = [
    "S1", "S2", "S3", "S4", "S5", "S6", "S7", "S8", "S2-late", "S3-late", "S4-late", "S5-late",
    "S6-late", "S7-late", "S8-late", "too-early", "to-spare", "later", "sooner", "both",
    "as-a-tick",
];

/// A machine as it was when its state began.
fn begun(machine: &Machine) -> Machine {
    let last = began(&machine.resting).map_or(machine.last, |(start, _)| start);
    Machine { last, ..*machine }
}

/// The first of which something is true, between one of which it is not and one of which it
/// is.
fn halved(mut not: u64, mut is: u64, other: impl Fn(&u64) -> bool) -> u64 {
    while not + 1 < is {
        let middle = (not + is) / 2;
        match other(&middle) {
            true => is = middle,
            false => not = middle,
        }
    }
    is
}

/// The number that stands before some words in a line.
fn number_before(line: &str, words: &str) -> Option<u64> {
    let front = &line[..line.find(words)?];
    let digits = front.len() - front.trim_end_matches(|c: char| c.is_ascii_digit()).len();
    front[front.len() - digits..].parse().ok()
}

/// The machine's slip, as the live keyboard's face has it.
impl From<Slips> for Wrong {
    fn from(slips: Slips) -> Wrong {
        Wrong { machine: slips.machine, live: None }
    }
}
