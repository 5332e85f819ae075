//! Compares the pictures that `explain --svg` draws with the logs:
//!
//!   compare_picture EXPLAIN LOGS [COUNT [SEED]] [--wrong-rule [NAME]]
//!
//! Draws each log in the folder LOGS and COUNT random ones, whole and in parts. A picture
//! must be XML, and show what the log and the model say and nothing else: each press as a
//! bar in its row from its stamp to its release's, or to the end where none came; each
//! deadline; each committed character where it was committed; the time that decided, and the
//! margin. Exit 0: all equal. Exit 1: a mismatch, printed. Exit 2: wrong arguments.

use std::fs;
use std::path::PathBuf;
use std::process::ExitCode;

use trabeculon_model::arguments::{self, named};
use trabeculon_model::damage::random_damaged;
use trabeculon_model::explain::{explain, Seen, Slips};
use trabeculon_model::generate::{random_case, right_settings, typed_log};
use trabeculon_model::picture::{axis, expected, found, PictureSlip, Shape, MOST, PICTURE_SLIPS, WHATS};
use trabeculon_model::program::{cut_hex, run};
use trabeculon_model::random::Random;
use trabeculon_model::tally::Tally;
use trabeculon_model::xml;

const DEFAULT_COUNT: u64 = 500;
const DEFAULT_SEED: u64 = 20_010_401;
/// So many parts of each log are drawn besides the whole.
const PARTS: usize = 4;

type Arguments = arguments::Arguments<Option<PictureSlip>>;

fn main() -> ExitCode {
    let words: Vec<String> = std::env::args().skip(1).collect();
    let read = match &words[..] {
        [program, logs, rest @ ..] => read_arguments(rest).map(|read| (program, logs, read)),
        _ => None,
    };
    let Some((program, logs, arguments)) = read else {
        eprintln!("usage: compare_picture EXPLAIN LOGS [COUNT [SEED]] [--wrong-rule [NAME]]");
        eprintln!("names: {}", PICTURE_SLIPS.map(|(name, _)| name).join(", "));
        return ExitCode::from(2);
    };
    let mut compared =
        Compared { program: program.clone(), slip: arguments.wrong, ..Compared::default() };
    match compared.all(logs, &arguments) {
        Ok(()) => ExitCode::SUCCESS,
        Err(message) => {
            println!("{message}");
            ExitCode::from(1)
        }
    }
}

fn read_arguments(words: &[String]) -> Option<Arguments> {
    let usual = Arguments { count: DEFAULT_COUNT, seed: DEFAULT_SEED, wrong: None };
    let slip = |name: &str| named(&PICTURE_SLIPS, name).map(Some);
    Arguments::read(words, usual, Some(PICTURE_SLIPS[0].1), slip)
}

/// What was compared, and how often each kind of shape came up.
#[derive(Default)]
struct Compared {
    program: String,
    slip: Option<PictureSlip>,
    pictures: u64,
    too_many: u64,
    shapes: Tally<&'static str>,
    drawn: u64,
}

impl Compared {
    fn all(&mut self, logs: &str, arguments: &Arguments) -> Result<(), String> {
        xml::check()?;
        let seed = arguments.seed;
        let mut random = Random::new(seed);
        let stored = stored(logs).map_err(|error| format!("{logs}: {error}"))?;
        for (name, log) in &stored {
            self.log(&mut random, log).map_err(|what| format!("{name}: {what}"))?;
            self.damaged(log).map_err(|what| format!("{name}: {what}"))?;
        }
        for index in 0..arguments.count {
            let log = match index % 8 {
                0 => random_damaged(&mut random),
                _ => random_case(&mut random).log,
            };
            self.log(&mut random, &log).map_err(|what| format!("log {index} of seed {seed}: {what}"))?;
        }
        // And one of too many events for a picture: only its parts are drawn.
        let raw = right_settings(&mut random);
        let long = typed_log(&mut random, raw, 14 * MOST);
        self.log(&mut random, &long).map_err(|what| format!("a long log: {what}"))?;
        println!(
            "compared {} pictures of {} stored logs, of {} random ones of seed {seed} and of a long one: {} shapes",
            self.pictures,
            stored.len(),
            arguments.count,
            self.drawn
        );
        println!("  shapes{}; too many events for a picture: {}", self.shapes.times(), self.too_many);
        match self.too_many {
            0 => Err("no log was too long".to_string()),
            _ => self.shapes.complete(&WHATS, self.drawn),
        }
    }

    /// A log's whole picture, and some of its parts: few events stand far apart, so that a
    /// millisecond can be seen.
    fn log(&mut self, random: &mut Random, log: &[u8]) -> Result<(), String> {
        let table = self.run(&[], log)?;
        // What decides otherwise far away is looked for first where the table says.
        let seen = explain(Slips::default(), log, &table.0).seen;
        self.picture(&[], log, &seen)?;
        for _ in 0..PARTS.min(seen.len()) {
            let (first, last) = part(random, seen.len());
            let part = &seen[first..=last];
            let lines = format!("{}..{}", first + 1, last + 1);
            let (from, to) = (seen[first].event.stamp, seen[last].event.stamp);
            match random.below(3) {
                0 => {
                    let between = |seen: &&Seen| (from..=to).contains(&seen.event.stamp);
                    let part: Vec<Seen> = seen.iter().filter(between).cloned().collect();
                    self.picture(&["--from", &from.to_string(), "--to", &to.to_string()], log, &part)?;
                }
                _ => self.picture(&["--lines", &lines], log, part)?,
            }
        }
        Ok(())
    }

    /// What the program writes to its standard output and to its standard error.
    fn run(&self, arguments: &[&str], log: &[u8]) -> Result<(String, String), String> {
        let program = &self.program;
        let arguments: Vec<String> = arguments.iter().map(|word| word.to_string()).collect();
        let ran = run(program, &arguments, log).map_err(|error| format!("{program}: {error}"))?;
        let text = |bytes| String::from_utf8(bytes).map_err(|_| format!("{program} writes no UTF-8"));
        Ok((text(ran.stdout)?, text(ran.stderr)?))
    }

    /// One picture of these events.
    fn picture(&mut self, range: &[&str], log: &[u8], seen: &[Seen]) -> Result<(), String> {
        let (svg, said) = self.run(&[range, &["--svg"]].concat(), log)?;
        let place = || format!("\narguments {range:?}\nlog       {}", cut_hex(log));
        if seen.len() > MOST {
            self.too_many += 1;
            let told = said.contains(&format!("these are {}: choose some", seen.len()));
            return match svg.is_empty() && told {
                true => Ok(()),
                false => Err(format!("of {} events it says {said:?}{}", seen.len(), place())),
            };
        }
        let shapes = self.differ(&svg, seen).map_err(|what| what + &place())?;
        self.pictures += 1;
        self.drawn += shapes.len() as u64;
        shapes.iter().filter(|shape| shape.what != "end").for_each(|shape| self.shapes.add(shape.what));
        Ok(())
    }

    /// What a picture shows, or an error where that is not what it should.
    fn differ(&self, svg: &str, seen: &[Seen]) -> Result<Vec<Shape>, String> {
        let svg = xml::parse(svg).map_err(|what| format!("no XML: {what}"))?;
        let shown = found(&svg)?;
        let right = expected(self.slip, axis(&svg)?, seen);
        let wrong = |these: &[Shape], those: &[Shape]| {
            let mut those = those.to_vec();
            let extra = these.iter().find(|shape| {
                let place = those.iter().position(|other| other == *shape);
                place.map(|place| those.swap_remove(place)).is_none()
            });
            extra.map_or("nothing".to_string(), |shape| format!("{shape:?}"))
        };
        match shown == right {
            true => Ok(shown),
            false => Err(format!(
                "the picture shows {}\nand not       {}",
                wrong(&shown, &right),
                wrong(&right, &shown)
            )),
        }
    }

    /// A picture with one of its shapes left out, drawn twice, moved by a unit, or cut
    /// somewhere, is seen to be wrong.
    fn damaged(&self, log: &[u8]) -> Result<(), String> {
        let (svg, _) = self.run(&["--svg"], log)?;
        let (table, _) = self.run(&[], log)?;
        let seen = explain(Slips::default(), log, &table).seen;
        if seen.len() > MOST {
            return Ok(());
        }
        let lines: Vec<&str> = svg.lines().collect();
        let with = |place: usize, line: &[&str]| [&lines[..place], line, &lines[place + 1..]].concat().join("\n");
        let shapes = (0..lines.len()).filter(|place| is_shape(lines[*place]));
        for place in shapes {
            let line = lines[place];
            let moved = moved(line);
            let cut = &line[..line.len() - 1];
            let wrong = [vec![], vec![line, line], vec![&moved[..]], vec![cut]];
            for picture in wrong.map(|lines| with(place, &lines)) {
                if self.differ(&picture, &seen).is_ok() {
                    return Err(format!("a wrong picture is taken:\n{picture}\n(it was {line})"));
                }
            }
        }
        Ok(())
    }
}

/// The logs in a folder, by their names.
fn stored(folder: &str) -> std::io::Result<Vec<(String, Vec<u8>)>> {
    let entries: std::io::Result<Vec<PathBuf>> =
        fs::read_dir(folder)?.map(|entry| entry.map(|entry| entry.path())).collect();
    let mut paths = entries?;
    paths.retain(|path| path.extension().is_some_and(|end| end == "log"));
    paths.sort();
    let logs = paths.iter().map(|path| Ok((path.display().to_string(), fs::read(path)?)));
    logs.collect()
}

/// From one of so many events to another, mostly near it.
fn part(random: &mut Random, count: usize) -> (usize, usize) {
    let first = random.place(count);
    let wide = if random.once_in(4) { count } else { 5 };
    let last = first + random.place(wide.min(count - first));
    (first, last)
}

/// Whether a line of a picture draws something of the log.
fn is_shape(line: &str) -> bool {
    let classes = ["letter", "thumb", "name", "due", "line", "gap", "small middle", "margin"];
    let class = |class: &&str| line.contains(&format!(" class=\"{class}\""));
    classes.iter().any(class) && !line.starts_with("<svg")
}

/// A shape a unit further to the right.
fn moved(line: &str) -> String {
    let Some((front, value)) = [" x=\"", " x1=\""].iter().find_map(|name| {
        let at = line.find(name)? + name.len();
        Some((&line[..at], &line[at..]))
    }) else {
        return String::new();
    };
    let (digits, rest) = value.split_at(value.find('"').unwrap_or(0));
    format!("{front}{}{rest}", digits.parse::<u64>().map_or(0, |x| x + 1))
}
