//! What a picture of a log shows, by the log and the model: each press as a bar in its row
//! from its stamp to its release's, a tick at each deadline, each committed character where
//! it was committed, the time that decided and its margin. And what a picture that was drawn
//! shows: read from its XML by the names of its rows and by its axis.

use crate::explain::{Margin, Seen};
use crate::log::text;
use crate::model::{character, Event, Face};
use crate::xml::Element;

/// A wrong rule for what is made here, so that the comparison must find something.
#[derive(Clone, Copy, PartialEq, Eq, Debug)]
pub enum PictureSlip {
    /// A bar ends at the next event.
    BarToTheNext,
    /// A release is missed: the bar goes on to the end.
    ReleaseMissed,
    /// The release of any key ends a bar.
    AnyRelease,
    /// The thumbs' rows are exchanged.
    ThumbsExchanged,
    /// Keys from B06 on stand in row C.
    RowsShifted,
    /// A repeat is a press.
    RepeatsDrawn,
    /// A deadline stands a millisecond later.
    DueOneOff,
    /// A deadline behind the end stands at the end.
    DueAtTheEnd,
    /// A character stands where its state began, and not where it was committed.
    CommitAtPress,
    /// Of two committed characters one is shown.
    FirstOnly,
    /// An empty face is not shown.
    EmptyUnshown,
    /// A release that leaves open what it means has no margin.
    OpenUndrawn,
    /// The time that decided ends with the event, also where it was late.
    GapToTheEvent,
    /// Sooner for later.
    MarginTurned,
    /// A millisecond more.
    MarginOneMore,
    /// The time that decided is counted from the event before.
    GapSinceTheLast,
    /// It is marked where nothing was close.
    GapEverywhere,
}

pub const PICTURE_SLIPS: [(&str, PictureSlip); 17] = [
    ("bar-to-the-next", PictureSlip::BarToTheNext),
    ("release-missed", PictureSlip::ReleaseMissed),
    ("any-release", PictureSlip::AnyRelease),
    ("thumbs-exchanged", PictureSlip::ThumbsExchanged),
    ("rows-shifted", PictureSlip::RowsShifted),
    ("repeats-drawn", PictureSlip::RepeatsDrawn),
    ("due-one-off", PictureSlip::DueOneOff),
    ("due-at-the-end", PictureSlip::DueAtTheEnd),
    ("commit-at-press", PictureSlip::CommitAtPress),
    ("first-only", PictureSlip::FirstOnly),
    ("empty-unshown", PictureSlip::EmptyUnshown),
    ("open-undrawn", PictureSlip::OpenUndrawn),
    ("gap-to-the-event", PictureSlip::GapToTheEvent),
    ("margin-turned", PictureSlip::MarginTurned),
    ("margin-one-more", PictureSlip::MarginOneMore),
    ("gap-since-the-last", PictureSlip::GapSinceTheLast),
    ("gap-everywhere", PictureSlip::GapEverywhere),
];

/// Something that a picture shows: in which row, from where to where, and its text.
#[derive(Clone, PartialEq, Eq, PartialOrd, Ord, Debug)]
pub struct Shape {
    pub what: &'static str,
    pub row: String,
    pub from: u64,
    pub to: u64,
    pub text: String,
}

/// What shapes are, for counting.
pub const WHATS: [&str; 9] =
    ["letter", "thumb", "name", "function", "due", "committed", "gap", "gap's time", "margin"];

/// No picture has more events.
pub const MOST: usize = 256;

// ---- By the log ----

/// The picture's axis: where the first stamp stands and where the last.
#[derive(Clone, Copy)]
pub struct Axis {
    pub left: u64,
    pub right: u64,
}

/// The events that are drawn, on an axis.
struct Drawing<'a> {
    slip: Option<PictureSlip>,
    axis: Axis,
    seen: &'a [Seen],
}

/// All that the picture of these events shows, in order.
pub fn expected(slip: Option<PictureSlip>, axis: Axis, seen: &[Seen]) -> Vec<Shape> {
    let drawing = Drawing { slip, axis, seen };
    let mut shapes: Vec<Shape> = (0..seen.len()).flat_map(|place| drawing.event(place)).collect();
    shapes.push(shape("end", "", (axis.left, axis.left), format!("{} ms", drawing.first())));
    shapes.push(shape("end", "", (axis.right, axis.right), format!("{} ms", drawing.last())));
    shapes.sort();
    shapes
}

fn shape(what: &'static str, row: &str, (from, to): (u64, u64), text: String) -> Shape {
    Shape { what, row: row.to_string(), from, to, text }
}

impl Drawing<'_> {
    fn is(&self, slip: PictureSlip) -> bool {
        self.slip == Some(slip)
    }

    fn first(&self) -> u64 {
        self.seen.first().map_or(0, |seen| seen.event.stamp)
    }

    fn last(&self) -> u64 {
        self.seen.last().map_or(0, |seen| seen.event.stamp)
    }

    /// Where a stamp stands, rounded down; one before the first stands there.
    fn across(&self, stamp: u64) -> u64 {
        let (long, since) = (self.last() - self.first(), stamp.saturating_sub(self.first()));
        let wide = u128::from(self.axis.right - self.axis.left);
        let share = (u128::from(since) * wide).checked_div(long.into()).unwrap_or(0);
        self.axis.left + share as u64
    }

    fn event(&self, place: usize) -> Vec<Shape> {
        let press = self.press(place);
        press.into_iter().chain(self.due(place)).chain(self.committed(place)).collect()
    }

    /// A letter's or thumb's bar, a letter's name in it, or a function key.
    fn press(&self, place: usize) -> Vec<Shape> {
        let Seen { event: Event { kind, key, stamp }, repeat, .. } = self.seen[place];
        let from = self.across(stamp);
        // A bar can be seen even if it lasts no time.
        let bar = (from, self.across(self.released(place)).max(from + 1));
        let left = (key == 0) != self.is(PictureSlip::ThumbsExchanged);
        match kind {
            1 if repeat && !self.is(PictureSlip::RepeatsDrawn) => vec![],
            1 => {
                let face = character(key, Face::Plain).map_or(String::new(), String::from);
                let name = format!("{key} {face}");
                let row = self.letter_row(key);
                vec![
                    shape("letter", row, bar, String::new()),
                    shape("name", row, (from + 2, from + 2), name),
                ]
            }
            3 => {
                let row = if left { "left thumb" } else { "right thumb" };
                vec![shape("thumb", row, bar, String::new())]
            }
            5 => vec![shape("function", "deadlines", (from, from), "fn".to_string())],
            _ => vec![],
        }
    }

    /// 01's layout: keys 0 to 9 are B01 to B10, 10 to 19 C01 to C10, 20 to 30 D01 to D11.
    fn letter_row(&self, key: u8) -> &'static str {
        match key {
            5..=9 if self.is(PictureSlip::RowsShifted) => "row C",
            0..=9 => "row B",
            10..=19 => "row C",
            _ => "row D",
        }
    }

    /// The stamp of the release of what was pressed; where there is none, the last stamp.
    fn released(&self, place: usize) -> u64 {
        let Event { kind, key, .. } = self.seen[place].event;
        let behind = &self.seen[place + 1..];
        let any = self.is(PictureSlip::AnyRelease);
        let ends = |seen: &&Seen| {
            seen.event.kind == kind + 1 && (any || seen.event.key == key)
        };
        let release = match self.slip {
            Some(PictureSlip::BarToTheNext) => behind.first(),
            Some(PictureSlip::ReleaseMissed) => None,
            _ => behind.iter().find(ends),
        };
        release.map_or(self.last(), |seen| seen.event.stamp)
    }

    /// A tick at the deadline that stands after an event, if the picture reaches so far.
    fn due(&self, place: usize) -> Option<Shape> {
        let due = self.seen[place].due? + u64::from(self.is(PictureSlip::DueOneOff));
        let due = match self.is(PictureSlip::DueAtTheEnd) {
            true => due.min(self.last()),
            false => due,
        };
        let x = self.across(due);
        (due <= self.last()).then(|| shape("due", "deadlines", (x, x), String::new()))
    }

    /// What an event committed, what decided and how close it was.
    fn committed(&self, place: usize) -> Vec<Shape> {
        let Seen { event, began, until, ref words, margin, open, .. } = self.seen[place];
        let x = self.across(event.stamp);
        let most = if self.is(PictureSlip::FirstOnly) { 1 } else { 2 };
        let signs: String = words.iter().take(most).map(|word| sign(*word)).collect();
        let open = open && !self.is(PictureSlip::OpenUndrawn);
        if (words.is_empty() && !open) || (self.is(PictureSlip::EmptyUnshown) && words[..] == [0]) {
            return vec![];
        }
        let at = match began {
            Some(began) if self.is(PictureSlip::CommitAtPress) => self.across(began),
            _ => x,
        };
        let sign = (!words.is_empty()).then(|| shape("committed", "committed", (at, at), signs));
        let mut shapes: Vec<Shape> = sign.into_iter().collect();
        shapes.extend(margin.map(|margin| shape("margin", "margin", (x, x), self.margin(margin))));
        let until = if self.is(PictureSlip::GapToTheEvent) { event.stamp } else { until };
        let since = match self.is(PictureSlip::GapSinceTheLast) {
            true => place.checked_sub(1).map(|before| self.seen[before].event.stamp),
            false => began,
        };
        let close = margin.is_some() || self.is(PictureSlip::GapEverywhere);
        let since = since.filter(|since| close && *since < until);
        shapes.extend(since.into_iter().flat_map(|since| self.gap(since, until)));
        shapes
    }

    fn gap(&self, since: u64, stamp: u64) -> [Shape; 2] {
        let (from, to) = (self.across(since), self.across(stamp));
        let time = format!("{} ms", stamp - since);
        [
            shape("gap", "decided by", (from, to), String::new()),
            shape("gap's time", "decided by", (to, to), time),
        ]
    }

    fn margin(&self, margin: Margin) -> String {
        let later = margin.later != self.is(PictureSlip::MarginTurned);
        let ms = margin.ms + u64::from(self.is(PictureSlip::MarginOneMore));
        Margin { ms, later }.text()
    }
}

/// A word as a picture has it, an empty face as `-`: two code points may not stand in XML.
fn sign(word: u16) -> String {
    match word {
        0 => "-".to_string(),
        0xfffe | 0xffff => "?".to_string(),
        _ => text(word),
    }
}

// ---- As it was drawn ----

/// The rows' names and heights, and the axis.
struct Frame {
    rows: Vec<(String, u64)>,
    axis: Axis,
}

/// An axis has so many units, so that the milliseconds of a second can be told apart.
const NARROWEST: u64 = 1_000;

/// The axis of a picture.
pub fn axis(svg: &Element) -> Result<Axis, String> {
    let axis: Vec<&Element> = svg.children.iter().filter(|child| is(child, "line", "axis")).collect();
    let [line] = axis[..] else { return Err(format!("{} axes", axis.len())) };
    let axis = Axis { left: line.number("x1")?, right: line.number("x2")? };
    match axis.left + NARROWEST <= axis.right {
        true => Ok(axis),
        false => Err(format!("the axis is too short: {} to {}", axis.left, axis.right)),
    }
}

/// All that a picture shows, in order.
pub fn found(svg: &Element) -> Result<Vec<Shape>, String> {
    if svg.name != "svg" || svg.attribute("xmlns") != Some("http://www.w3.org/2000/svg") {
        return Err(format!("no picture: <{}>", svg.name));
    }
    let axis = axis(svg)?;
    let mut frame = Frame { rows: vec![], axis };
    for child in svg.children.iter().filter(|child| is(child, "text", "small")) {
        if child.number("x")? < axis.left {
            frame.rows.push((child.text.clone(), child.number("y")?));
        }
    }
    let shapes: Result<Vec<_>, _> = svg.children.iter().map(|child| frame.shape(child)).collect();
    let mut shapes: Vec<Shape> = shapes?.into_iter().flatten().collect();
    shapes.sort();
    Ok(shapes)
}

fn is(element: &Element, name: &str, class: &str) -> bool {
    element.name == name && element.attribute("class") == Some(class)
}

/// So far may a text or a line stand from its row's name.
const BESIDE: u64 = 12;

impl Frame {
    /// What an element shows; nothing for those that every picture has.
    fn shape(&self, element: &Element) -> Result<Option<Shape>, String> {
        let class = element.attribute("class").unwrap_or("");
        let shape = match (&element.name[..], class) {
            ("style", "") | ("rect", "") | ("line", "axis") => return Ok(None),
            ("rect", "letter") => self.bar("letter", element)?,
            ("rect", "thumb") => self.bar("thumb", element)?,
            ("line", "due") => self.tick(element)?,
            ("line", "gap") => self.gap(element)?,
            ("text", "small") if element.number("x")? < self.axis.left => return Ok(None),
            ("text", "small" | "small end") => self.text("end", element, None)?,
            ("text", "name") if element.text == "fn" => self.text("function", element, Some("deadlines"))?,
            ("text", "name") => self.name(element)?,
            ("text", "line") => self.text("committed", element, Some("committed"))?,
            ("text", "small middle") => self.text("gap's time", element, Some("decided by"))?,
            ("text", "margin") => self.text("margin", element, Some("margin"))?,
            _ => return Err(format!("what is this? {element:?}")),
        };
        Ok(Some(shape))
    }

    /// The row whose name stands between two heights.
    fn row(&self, top: u64, bottom: u64) -> Result<String, String> {
        let mut rows = self.rows.iter().filter(|(_, y)| (top..=bottom).contains(y));
        match (rows.next(), rows.next()) {
            (Some((name, _)), None) => Ok(name.clone()),
            _ => Err(format!("not in one row: {top} to {bottom}")),
        }
    }

    /// That a height is that of a row.
    fn beside(&self, y: u64, row: &str) -> Result<(), String> {
        match self.rows.iter().any(|(name, at)| name == row && y.abs_diff(*at) <= BESIDE) {
            true => Ok(()),
            false => Err(format!("{y} is not in the row {row:?}")),
        }
    }

    fn bar(&self, what: &'static str, bar: &Element) -> Result<Shape, String> {
        let (x, y) = (bar.number("x")?, bar.number("y")?);
        let row = self.row(y, y + bar.number("height")?)?;
        Ok(shape(what, &row, (x, x + bar.number("width")?), bar.text.clone()))
    }

    /// A key's name, which stands in its bar.
    fn name(&self, name: &Element) -> Result<Shape, String> {
        let (x, y) = (name.number("x")?, name.number("y")?);
        let row = self.row(y.saturating_sub(BESIDE), y + BESIDE)?;
        Ok(shape("name", &row, (x, x), name.text.clone()))
    }

    /// A line from top to bottom.
    fn tick(&self, line: &Element) -> Result<Shape, String> {
        let row = self.row(line.number("y1")?, line.number("y2")?)?;
        let at = (line.number("x1")?, line.number("x2")?);
        Ok(shape("due", &row, at, line.text.clone()))
    }

    /// A line along its row.
    fn gap(&self, line: &Element) -> Result<Shape, String> {
        self.beside(line.number("y1")?, "decided by")?;
        self.beside(line.number("y2")?, "decided by")?;
        let at = (line.number("x1")?, line.number("x2")?);
        Ok(shape("gap", "decided by", at, line.text.clone()))
    }

    fn text(&self, what: &'static str, text: &Element, row: Option<&str>) -> Result<Shape, String> {
        let x = text.number("x")?;
        if let Some(row) = row {
            self.beside(text.number("y")?, row)?;
        }
        Ok(shape(what, row.unwrap_or(""), (x, x), text.text.clone()))
    }
}
