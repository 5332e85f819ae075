//! Makes the files of examples/ byte for byte: `make_examples FOLDER`. Each
//! example is a log, a text that says what was typed, and what `play` prints; a
//! drill has its line too, and a damaged log what `mend | play` prints. What is printed stands here as text and is checked
//! against the model, and the log of a drill against the model's writer.

use std::io::{Error, Result};
use std::path::Path;
use std::process::ExitCode;

use trabeculon_model::drill::drill;
use trabeculon_model::log::{log_with, play};
use trabeculon_model::mend::mend;
use trabeculon_model::notation::events;
use trabeculon_model::pairs::{pair, Lent, Pair};

struct Example {
    name: &'static str,
    /// T, J, L, solo.
    settings: (u16, u8, u8, u8),
    /// Pairs, T_s, N.
    list: Option<(&'static [Pair], u16, u8)>,
    keystrokes: &'static str,
    /// Place and value of a damaged byte.
    damage: Option<(usize, u8)>,
    /// The line that `drill` makes this log from.
    line: Option<&'static str>,
    text: &'static str,
    expected: &'static str,
}

/// What `mend | play` prints of the damaged log: without the thumb か is no chord.
const MENDED: &str = "さいかい\nwaiting 0\n";

const USUAL: (u16, u8, u8, u8) = (100, 50, 50, 0);
const SLOW: (u16, u8, u8, u8) = (1_000, 50, 50, 0);

/// か and さ together give ゎ; T_s=100, N=50.
const KA_SA: Option<(&[Pair], u16, u8)> = Some((&[pair(21, 24, 0x308e)], 100, 50));

const EXAMPLES: [Example; 11] = [
    Example {
        name: "saigai",
        settings: USUAL,
        list: None,
        keystrokes: "24@0 24up@60 18@100 18up@150 21@200 R@230 21up@270 Rup@280 18@300 tick@400",
        damage: None,
        line: None,
        text: "\
The log of document 01: 138 bytes, T=100, J=L=50, solo 0.

   at  stamp  typed                what happens
    0         settings
    8      0  key 24 (さ) down     さ waits
   21     60  key 24 up            さ is committed
   34    100  key 18 (い) down     い waits
   47    150  key 18 up            い is committed
   60    200  key 21 (か) down     か waits
   73    230  right thumb down     か and the thumb wait until 260
   86    270  key 21 up            late: the chord が is committed first
   99    280  right thumb up
  112    300  key 18 (い) down     い waits until 400
  125    400  tick                 late: い is committed

play prints さいがい, and nothing waits.
",
        expected: "さいがい\nwaiting 0\n",
    },
    Example {
        name: "saikai",
        settings: USUAL,
        list: None,
        keystrokes: "24@0 24up@60 18@100 18up@150 21@200 R@230 21up@250 Rup@280 18@300 tick@400",
        damage: None,
        line: None,
        text: "\
The log of saigai with key 21 released 20 ms earlier: 138 bytes, T=100, J=L=50,
solo 0.

   at  stamp  typed                what happens
    0         settings
    8      0  key 24 (さ) down     さ waits
   21     60  key 24 up            さ is committed
   34    100  key 18 (い) down     い waits
   47    150  key 18 up            い is committed
   60    200  key 21 (か) down     か waits
   73    230  right thumb down     か and the thumb wait until 260
   86    250  key 21 up            20 ms of overlap after 30 ms alone: か is
                                   committed plain, the thumb stays
   99    280  right thumb up       no mark, since solo is 0
  112    300  key 18 (い) down     い waits until 400
  125    400  tick                 late: い is committed

play prints さいかい, and nothing waits.
",
        expected: "さいかい\nwaiting 0\n",
    },
    Example {
        name: "damaged",
        settings: USUAL,
        list: None,
        keystrokes: "24@0 24up@60 18@100 18up@150 21@200 R@230 21up@270 Rup@280 18@300 tick@400",
        damage: Some((73, 9)),
        line: None,
        text: "\
The log of saigai with one byte damaged: the tag of the record at offset 73 (the
right thumb's press) is 9, which is no tag. 138 bytes, T=100, J=L=50, solo 0.

   at  stamp  typed                what happens
    0         settings
    8      0  key 24 (さ) down     さ waits
   21     60  key 24 up            さ is committed
   34    100  key 18 (い) down     い waits
   47    150  key 18 up            い is committed
   60    200  key 21 (か) down     か waits
   73         damaged              refused 7; the rest is not read

play prints さい, which was committed before the damage, and where it is.
",
        expected: "さい\nrefused 7 at 73\n",
    },
    Example {
        name: "equal-gap",
        settings: (100, 60, 50, 0),
        list: None,
        keystrokes: "21@0 R@30 24@60 tick@126 tick@127",
        damage: None,
        line: None,
        text: "\
Document 01's keystrokes P8 as request 1/12 has them: the thumb lies 30 ms behind
the first character and 30 ms before the second, and the first has it. 73 bytes,
T=100, J=60, L=50, solo 0.

   at  stamp  typed                what happens
    0         settings
    8      0  key 21 (か) down     か waits
   21     30  right thumb down     か and the thumb wait until 75
   34     60  key 24 (さ) down     equal gaps: the chord が is committed, さ
                                   waits alone until 127
   47    126  tick                 nothing
   60    127  tick                 late: さ is committed

play prints がさ, and nothing waits.
",
        expected: "がさ\nwaiting 0\n",
    },
    Example {
        name: "slow-plain",
        settings: SLOW,
        list: None,
        keystrokes: "21@0 R@500 21up@899",
        damage: None,
        line: None,
        text: "\
Request 4/12's keystrokes: the thumb comes 500 ms behind the character, and 399 ms
of overlap still count as short. 47 bytes, T=1000, J=L=50, solo 0.

   at  stamp  typed                what happens
    0         settings
    8      0  key 21 (か) down     か waits until 1000
   21    500  right thumb down     か and the thumb wait until 1000
   34    899  key 21 up            399 ms of overlap after 500 ms alone: か is
                                   committed plain, the thumb stays

play prints か, and nothing waits.
",
        expected: "か\nwaiting 0\n",
    },
    Example {
        name: "slow-chord",
        settings: SLOW,
        list: None,
        keystrokes: "21@0 R@500 21up@900",
        damage: None,
        line: None,
        text: "\
The log of slow-plain with key 21 released 1 ms later: from 400 ms of overlap on it
is a chord. 47 bytes, T=1000, J=L=50, solo 0.

   at  stamp  typed                what happens
    0         settings
    8      0  key 21 (か) down     か waits until 1000
   21    500  right thumb down     か and the thumb wait until 1000
   34    900  key 21 up            400 ms of overlap after 500 ms alone: under
                                   half of the whole, but not under 400 ms, so
                                   the chord が is committed

play prints が, and nothing waits.
",
        expected: "が\nwaiting 0\n",
    },
    Example {
        name: "drill",
        settings: USUAL,
        list: None,
        keystrokes: "24@0 24up@0 18@250 18up@250 21@500 R@500 tick@500 Rup@500 21up@500 \
                     18@750 18up@750",
        damage: None,
        line: Some("さいがい\n"),
        text: "\
The drill of さいがい (request 2/12): what `drill` writes for drill.line. 151 bytes,
T=100, J=L=50, solo 0.

   at  stamp  typed                what happens
    0         settings
    8      0  key 24 (さ) down     さ waits
   21      0  key 24 up            さ is committed
   34    250  key 18 (い) down     い waits
   47    250  key 18 up            い is committed
   60    500  key 21 (か) down     か waits
   73    500  right thumb down     か and the thumb wait until 500
   86    500  tick                 late: the chord が is committed
   99    500  right thumb up
  112    500  key 21 up
  125    750  key 18 (い) down     い waits
  138    750  key 18 up            い is committed

play prints さいがい, and nothing waits.
",
        expected: "さいがい\nwaiting 0\n",
    },
    Example {
        name: "held",
        settings: USUAL,
        list: None,
        keystrokes: "21@0 21@500 21@533 R@550 21@566 21up@580 Rup@590 21@700 21up@750",
        damage: None,
        line: None,
        text: "\
A letter is held down until it repeats in the hardware (request 7/12): a repeat is
no press and does what a tick does. 125 bytes, T=100, J=L=50, solo 0.

   at  stamp  typed                what happens
    0         settings
    8      0  key 21 (か) down     か waits until 100
   21    500  key 21 down again    a repeat; late: か is committed
   34    533  key 21 down again    a repeat: nothing
   47    550  right thumb down     the thumb waits
   60    566  key 21 down again    a repeat: nothing, so there is no chord
   73    580  key 21 up            nothing; the key is no longer held
   86    590  right thumb up       no mark, since solo is 0
   99    700  key 21 (か) down     a new press: か waits until 800
  112    750  key 21 up            か is committed

play prints かか, and nothing waits. Before 7/12 each repeat was a press, and it
printed かかかがか.
",
        expected: "かか\nwaiting 0\n",
    },
    Example {
        name: "seven",
        settings: USUAL,
        list: None,
        keystrokes: "10@0 11@20 12@40 13@60 14@80 15@100 15@130 11up@150 16@160 17@170 tick@270",
        damage: None,
        line: None,
        text: "\
Seven fingers (request 7/12): a press of a new key while six are held is refused.
151 bytes, T=100, J=L=50, solo 0.

   at  stamp  typed                what happens
    0         settings
    8      0  key 10 (う) down     う waits
   21     20  key 11 (し) down     う is committed, し waits
   34     40  key 12 (て) down     し is committed, て waits
   47     60  key 13 (け) down     て is committed, け waits
   60     80  key 14 (せ) down     け is committed, せ waits
   73    100  key 15 (は) down     せ is committed, は waits; six are held
   86    130  key 15 down again    a repeat, though six are held: nothing
   99    150  key 11 up            five are held
  112    160  key 16 (と) down     は is committed, と waits; six are held
  125    170  key 17 (き) down     a seventh: refused 11; the rest is not read

play prints うしてけせは, which was committed before that, and where it is. と waits.
",
        expected: "うしてけせは\nrefused 11 at 125\n",
    },
    Example {
        name: "pair",
        settings: USUAL,
        list: KA_SA,
        keystrokes: "21@0 24@30 21up@59 24up@87",
        damage: None,
        line: None,
        text: "\
A chord of two letters (request 9/12): the list has one pair, keys 21 and 24, which
together give ゎ. 70 bytes, T=100, J=L=50, solo 0; T_s=100, N=50.

   at  stamp  typed                what happens
    0         settings
    8         list of pairs        T_s, N, and the pair
   18      0  key 21 (か) down     か waits
   31     30  key 24 (さ) down     a pair: both wait until 130
   44     59  key 21 up            29 ms of overlap after 30 ms alone, under half
                                   of the whole: both wait until 88
   57     87  key 24 up            of the 57 ms that key 24 was down, key 21 was
                                   down 29, not under half: ゎ is committed

play prints ゎ, and nothing waits.
",
        expected: "ゎ\nwaiting 0\n",
    },
    Example {
        name: "pair-late",
        settings: USUAL,
        list: KA_SA,
        keystrokes: "21@0 24@30 21up@59 24up@88",
        damage: None,
        line: None,
        text: "\
The log of pair with key 24 released 1 ms later, which is too late. 70 bytes, T=100,
J=L=50, solo 0; T_s=100, N=50.

   at  stamp  typed                what happens
    0         settings
    8         list of pairs        T_s, N, and the pair
   18      0  key 21 (か) down     か waits
   31     30  key 24 (さ) down     a pair: both wait until 130
   44     59  key 21 up            29 ms of overlap after 30 ms alone, under half
                                   of the whole: both wait until 88
   57     88  key 24 up            late: か and さ are committed

play prints かさ, and nothing waits.
",
        expected: "かさ\nwaiting 0\n",
    },
];

fn main() -> ExitCode {
    let Some(folder) = std::env::args().nth(1) else {
        eprintln!("usage: make_examples FOLDER");
        return ExitCode::from(2);
    };
    match EXAMPLES.iter().try_for_each(|example| make(Path::new(&folder), example)) {
        Ok(()) => ExitCode::SUCCESS,
        Err(error) => {
            eprintln!("{error}");
            ExitCode::FAILURE
        }
    }
}

/// Writes the files of one example.
fn make(folder: &Path, example: &Example) -> Result<()> {
    let log = log(example).ok_or(Error::other("can't read the keystrokes"))?;
    if play(&log) != example.expected {
        return Err(Error::other(format!("{}: the model prints {}", example.name, play(&log))));
    }
    let drilled = |line: &str| drill(example.settings, line.as_bytes()) == Some(Ok(log.clone()));
    if !example.line.is_none_or(drilled) {
        return Err(Error::other(format!("{}: the model drills another log", example.name)));
    }
    let write = |ending: &str, bytes: &[u8]| {
        std::fs::write(folder.join(format!("{}.{ending}", example.name)), bytes)
    };
    if let Some(line) = example.line {
        write("line", line.as_bytes())?;
    }
    if example.damage.is_some() {
        if mend(&log).is_ok_and(|mended| play(&mended.log) == MENDED) {
            write("mended", MENDED.as_bytes())?;
        } else {
            return Err(Error::other(format!("{}: the model mends it otherwise", example.name)));
        }
    }
    write("log", &log)?;
    write("txt", example.text.as_bytes())?;
    write("expected", example.expected.as_bytes())
}

fn log(example: &Example) -> Option<Vec<u8>> {
    let lent = example.list.map(|(pairs, ts, n)| Lent::new(pairs, ts, n));
    let mut log = log_with(example.settings, lent.as_ref(), &events(example.keystrokes)?);
    if let Some((place, value)) = example.damage {
        *log.get_mut(place)? = value;
    }
    Some(log)
}
