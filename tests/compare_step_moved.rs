//! The part of `compare_step` for request 8/12: walks from opened machines, and single
//! states, with the same number added to every stamp of a state, an event and an asking.
//! The library must answer what the model answers, and what it answers without the move:
//! the same numbers, items and sendings, the same machine but for its stamps, which are
//! moved, and the same signed distance. This comes after all that is not moved, so that
//! a wrong rule which is seen here was not seen there.

use std::fmt::Debug;

use trabeculon_model::lists::right_lent;
use trabeculon_model::live::{Stepped, Wrong};
use trabeculon_model::model::Event;
use trabeculon_model::moved::{
    moved_event, moved_flat, moved_stamp, moves, one_move, stays, MOVES,
};
use trabeculon_model::pairs::Lent;
use trabeculon_model::random::Random;
use trabeculon_model::states::{random_event, random_stamp, right_state};
use trabeculon_model::tally::Tally;

use crate::{
    compare_open, every_walk, face, Arguments, Compared, Walk, WALK_DISTANCE_NUMBERS,
    WALK_STEP_NUMBERS,
};

pub fn compare_all(arguments: &Arguments) -> Result<(), String> {
    compare_walks(arguments)?;
    compare_states(arguments)
}

/// The walks of before, each moved in several ways.
fn compare_walks(arguments: &Arguments) -> Result<(), String> {
    let mut random = Random::new(arguments.seed);
    let (mut compared, mut ways) = (Compared::default(), Tally::default());
    let walks = every_walk(arguments, &mut Compared::default(), |walk| {
        let stamps: Vec<u64> = walk.calls.iter().map(|call| call.event.stamp).collect();
        moves(&mut random, &stamps).into_iter().try_for_each(|(way, k)| {
            ways.add(way);
            compare_walk(arguments.wrong, &walk, k, &mut compared).map_err(|what| {
                let events: Vec<Event> = walk.calls.iter().map(|call| call.event).collect();
                let (raw, lent) = (walk.settings, &walk.lent);
                format!("moved by {k}: {what}\nT J L solo {raw:?}, {lent:?}, {events:?}")
            })
        })
    })?;
    compared.print(&format!("in {walks} walks of seed {}, moved", arguments.seed));
    println!("  how far{}", ways.times());
    compared.complete(&WALK_STEP_NUMBERS, &WALK_DISTANCE_NUMBERS, arguments.count)?;
    ways.complete(&MOVES, arguments.count)
}

/// The calls of a walk from opening on, all of their stamps moved. Until an event is
/// accepted the machine is the fresh one, 0 its last stamp.
fn compare_walk(wrong: Wrong, walk: &Walk, k: u64, compared: &mut Compared) -> Result<(), String> {
    let lent = &walk.lent;
    let mut machine = compare_open(wrong, walk.settings)?.machine;
    let mut accepted = false;
    for call in &walk.calls {
        accepted |= call.stepped.number == 0;
        let right = moved_answer(lent, call.stepped, if accepted { k } else { 0 });
        let mut compare = || {
            same(compared.step(wrong, lent, &machine, moved_event(call.event, k))?, right)?;
            let mut stay = call.asked.iter().filter(|(stamp, _)| stays(*stamp, k));
            stay.try_for_each(|(stamp, asked)| {
                let stamp = moved_stamp(*stamp, k);
                same(compared.distance(wrong, lent, &right.machine, stamp)?, *asked)
            })
        };
        compare().map_err(|what| format!("{what}\nat {:?}", call.event))?;
        machine = right.machine;
    }
    Ok(())
}

/// Any well-formed state, also one that no sequence from a fresh one leaves.
fn compare_states(arguments: &Arguments) -> Result<(), String> {
    let (wrong, seed) = (arguments.wrong, arguments.seed);
    let mut random = Random::new(seed);
    let (mut compared, mut ways) = (Compared::default(), Tally::default());
    for index in 0..arguments.count {
        let lent = right_lent(&mut random);
        let flat = right_state(&mut random, &lent);
        let event = random_event(&mut random, &lent, &flat);
        let stamp = random_stamp(&mut random, &lent, &flat);
        let stamps = [flat.last.ms, event.stamp, stamp];
        let Some((way, k)) = one_move(&mut random, &stamps) else { continue };
        ways.add(way);
        let moved = moved_flat(&lent, &flat, k);
        let mut compare = || {
            let stepped = compared.step(wrong, &lent, &moved, moved_event(event, k))?;
            same(stepped, moved_answer(&lent, face::step(&lent, &flat, event), k))?;
            let asked = compared.distance(wrong, &lent, &moved, moved_stamp(stamp, k))?;
            same(asked, face::distance(&lent, &flat, stamp))
        };
        compare().map_err(|what| {
            let before = format!("{event:?} and distance from {stamp} of {flat:?}, {lent:?}");
            format!("state {index} of seed {seed}, moved by {k}: {what}\n{before}")
        })?;
    }
    compared.print(&format!("from random states of seed {seed}, moved"));
    println!("  how far{}", ways.times());
    ways.complete(&MOVES, arguments.count)
}

/// An answer with the stamps of its machine moved.
fn moved_answer(lent: &Lent, stepped: Stepped, k: u64) -> Stepped {
    Stepped { machine: moved_flat(lent, &stepped.machine, k), ..stepped }
}

fn same<T: Debug + PartialEq>(after: T, right: T) -> Result<(), String> {
    match after == right {
        true => Ok(()),
        false => Err(format!("not as before\nright   {right:?}\nlibrary {after:?}")),
    }
}
