//! 01's way of writing keystrokes, read into events: `21@0`, `21up@59`, `R@30`,
//! `Rup@60`, `F@70` (function), `tick@100`, with blanks between.

use crate::model::{Event, Sending, Sign, Thumb};

/// None if a keystroke can't be read.
pub fn events(text: &str) -> Option<Vec<Event>> {
    text.split_whitespace().map(event).collect()
}

fn event(text: &str) -> Option<Event> {
    let (what, stamp) = text.split_once('@')?;
    let (name, up) = match what.strip_suffix("up") {
        Some(name) => (name, 1),
        None => (what, 0),
    };
    let (kind, key) = match name {
        "F" => (5, 0),
        "tick" => (6, 0),
        "L" => (3 + up, 0),
        "R" => (3 + up, 1),
        key => (1 + up, key.parse().ok()?),
    };
    Some(Event { kind, key, stamp: stamp.parse().ok()? })
}

/// A sign as the program prints it.
pub fn sign_text(sign: &Sign) -> String {
    match sign {
        Sign::Character(c) => c.to_string(),
        Sign::Mark(Thumb::Left) => "<L>".to_string(),
        Sign::Mark(Thumb::Right) => "<R>".to_string(),
    }
}

/// Sendings in one line, a backspace as `<BS>`.
pub fn sendings_text(sendings: &[Sending]) -> String {
    let text = |sending: &Sending| match sending {
        Sending::Backspace => "<BS>".to_string(),
        Sending::Sign(sign) => sign_text(sign),
    };
    sendings.iter().map(text).collect()
}
