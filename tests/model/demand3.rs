//! Demand 3 of the model, tried on sequences of events with one list lent (9/12): the
//! five sentences with the words that document 01 gives them, checked after every event.

use crate::generate::{next_stamp, random_events};
use crate::model::{
    shown, sign, step_with, Event, Item, Machine, Resting, Sending, Settings, Sign, Step, KEYS,
    LARGEST_STAMP, MOST_HELD,
};
use crate::pairs::Lent;
use crate::random::Random;

/// A sequence so far: the machine and all that came of it.
struct Run<'a> {
    lent: &'a Lent,
    machine: Machine,
    /// Key and stamp of every accepted down of a key not held (7/12).
    presses: Vec<(u8, u64)>,
    items: Vec<Item>,
    line: Vec<Sign>,
    screen: Vec<Sign>,
}

impl Run<'_> {
    fn new(lent: &Lent, settings: Settings) -> Run<'_> {
        let machine = Machine::fresh(settings);
        Run { lent, machine, presses: vec![], items: vec![], line: vec![], screen: vec![] }
    }

    /// Takes one event and checks all that must hold then.
    fn take(&mut self, event: Event) -> Result<(), String> {
        match step_with(self.lent, &self.machine, event) {
            Err(number) => {
                expect([3, 4, 5, 11].contains(&number), "a run is refused 3, 4, 5 or 11 only")?;
            }
            Ok(step) => self.add(event, step)?,
        }
        self.keys_in_order()?;
        self.within_longest_wait()?;
        let held = self.machine.held;
        expect(self.held_while_waiting(), "a waiting key is held, but for M in S8")?;
        expect(held.count() <= MOST_HELD, "at most 6 keys are held")?;
        let seen = [&self.line[..], &shown(&self.machine.resting)].concat();
        expect(self.screen == seen, "the screen is the line and what is shown")
    }

    fn add(&mut self, event: Event, step: Step) -> Result<(), String> {
        expect(step.items.len() <= 2, "a step commits 0 to 2")?;
        expect(step.sendings.len() <= 4, "at most 4 sendings a step")?;
        expect(step.machine.well_formed_with(self.lent), "a step leaves a well-formed state")?;
        let late = self.machine.late_lines(self.lent, event.stamp);
        expect(late <= 1, "no late line follows another")?;
        expect(self.as_the_list_gives(&step.items), "a pair's character is its list's")?;
        self.send(&step.sendings)?;
        if event.kind == 1 && !self.machine.held.has(event.key) {
            self.presses.push((event.key, event.stamp));
        }
        self.line.extend(step.items.iter().filter_map(sign));
        self.items.extend(step.items);
        self.machine = step.machine;
        Ok(())
    }

    /// Sends to the screen; the line is still the one before the event.
    fn send(&mut self, sendings: &[Sending]) -> Result<(), String> {
        let mut sent = false;
        for sending in sendings {
            match sending {
                Sending::Sign(sign) => {
                    self.screen.push(*sign);
                    sent = true;
                }
                Sending::Backspace => {
                    self.screen.pop();
                    let kept = self.screen.starts_with(&self.line) && !sent;
                    expect(kept, "no backspace takes a committed character")?;
                }
            }
        }
        Ok(())
    }

    fn held_while_waiting(&self) -> bool {
        let held = |key| self.machine.held.has(key);
        match self.machine.resting {
            Resting::S8 { key, second, .. } => !held(key) && held(second),
            _ => self.machine.waiting().all(held),
        }
    }

    fn as_the_list_gives(&self, items: &[Item]) -> bool {
        items.iter().all(|item| match *item {
            Item::Together { first, second, character } => {
                let pair = self.lent.pairs.iter().find(|pair| pair.is_of(first, second));
                pair.is_some_and(|pair| pair.character == character)
            }
            _ => true,
        })
    }

    /// Keys of the committed characters, both of a pair's.
    fn committed(&self) -> impl Iterator<Item = u8> + '_ {
        self.items.iter().flat_map(|item| item.keys())
    }

    fn keys_in_order(&self) -> Result<(), String> {
        let pressed = self.presses.iter().map(|(key, _)| *key);
        let answered = self.committed().chain(self.machine.waiting());
        expect(pressed.eq(answered), "keys are committed or wait in the order of presses")
    }

    fn within_longest_wait(&self) -> Result<(), String> {
        let w = self.machine.settings.longest_wait_with(self.lent);
        let unanswered = self.presses.iter().skip(self.committed().count());
        let in_time = unanswered.into_iter().all(|(_, stamp)| self.machine.last < stamp + w);
        expect(in_time, "a press is committed within W")
    }
}

fn expect(holds: bool, what: &str) -> Result<(), String> {
    if holds {
        Ok(())
    } else {
        Err(what.to_string())
    }
}

/// One random sequence: every sentence after every event, and the ticks.
pub fn check_random(random: &mut Random, lent: &Lent, settings: Settings) -> Result<(), String> {
    let count = random.place(40);
    let events = random_events(random, lent, Machine::fresh(settings), count, true);
    let all = check(lent, settings, &events)?;
    check_ticks(random, lent, settings, &events).map_err(|what| format!("{what}: {events:?}"))?;
    expect(all.machine.last <= LARGEST_STAMP, "the last stamp is at most the largest")
}

/// Every sentence but that about ticks, over one sequence.
fn check<'a>(lent: &'a Lent, settings: Settings, events: &[Event]) -> Result<Run<'a>, String> {
    let mut run = Run::new(lent, settings);
    for event in events {
        run.take(*event).map_err(|what| format!("{what}: {events:?}"))?;
    }
    Ok(run)
}

/// Ticks do not matter: the same key events with no tick, with many ticks and
/// with refused events between, all ended by the same tick, commit the same.
fn check_ticks(
    random: &mut Random,
    lent: &Lent,
    settings: Settings,
    events: &[Event],
) -> Result<(), String> {
    let keys = accepted_keys(lent, settings, events);
    let last = keys.last().map_or(0, |event| event.stamp);
    let beyond = last + settings.longest_wait_with(lent);
    let stamps = [last, last + random.below(1_200), beyond];
    let end = tick(random.pick(&stamps).min(LARGEST_STAMP));
    let bare = [&keys[..], &[end]].concat();
    let full = with_ticks(random, lent, settings, &bare);
    let same = check(lent, settings, &bare)?.items == check(lent, settings, &full)?.items;
    expect(same, "ticks do not matter")
}

fn tick(stamp: u64) -> Event {
    Event { kind: 6, key: 0, stamp }
}

/// The accepted key events of a sequence.
fn accepted_keys(lent: &Lent, settings: Settings, events: &[Event]) -> Vec<Event> {
    let mut machine = Machine::fresh(settings);
    let mut keys = vec![];
    for event in events {
        if let Ok(step) = step_with(lent, &machine, *event) {
            machine = step.machine;
            if event.kind <= 5 {
                keys.push(*event);
            }
        }
    }
    keys
}

/// The same events with ticks and refused events put between them.
fn with_ticks(
    random: &mut Random,
    lent: &Lent,
    settings: Settings,
    events: &[Event],
) -> Vec<Event> {
    let mut machine = Machine::fresh(settings);
    let mut full = vec![];
    for event in events {
        for _ in 0..random.below(4) {
            let extra = match random.below(4) {
                0 => Event { kind: 1, key: refused_key(&machine), stamp: event.stamp },
                _ => tick(next_stamp(random, lent, &machine).min(event.stamp)),
            };
            push(lent, &mut machine, &mut full, extra);
        }
        push(lent, &mut machine, &mut full, *event);
    }
    full
}

/// A key whose press is refused: a new one while 6 are held, and else key 31.
fn refused_key(machine: &Machine) -> u8 {
    let many = machine.held.count() == MOST_HELD;
    (0..KEYS).find(|key| many && !machine.held.has(*key)).unwrap_or(KEYS)
}

/// Adds an event to a sequence and takes it with the sequence's machine.
fn push(lent: &Lent, machine: &mut Machine, events: &mut Vec<Event>, event: Event) {
    events.push(event);
    if let Ok(step) = step_with(lent, machine, event) {
        *machine = step.machine;
    }
}
