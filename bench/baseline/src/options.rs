//! The words of the command line.

use crate::models::{Hop, Phold, Stations};
use crate::text::Version;
use std::fmt;
use std::ops::RangeInclusive;

pub const HELP: &str = "\
usage: baseline run [--NAME VALUE]..

A plain simulator of twarp's models: its options, its records and its refusals. See twarp run --help.
Its own option is --queue, the sequential simulator's queue of pending events: heap (the default) or wheel.
";

/// The options in the order in which they are tested.
const NAMES: [&str; 20] = [
    "model",
    "synch",
    "workers",
    "lps",
    "end",
    "seed",
    "hops",
    "stride",
    "delay",
    "rise",
    "population",
    "remote",
    "lookahead",
    "span",
    "jobs",
    "service",
    "travel",
    "turns",
    "text",
    "queue",
];

/// Why nothing, or not all, was printed.
pub enum Refusal {
    /// The command line, or the first bad option by its name.
    BadOption(&'static str),
    /// A write failed.
    Output,
}

impl Refusal {
    pub fn number(&self) -> u32 {
        match self {
            Refusal::BadOption(_) => 7,
            Refusal::Output => 9,
        }
    }

    /// The exit status.
    pub fn status(&self) -> u8 {
        match self {
            Refusal::BadOption(_) => 2,
            Refusal::Output => 1,
        }
    }
}

impl fmt::Display for Refusal {
    fn fmt(&self, f: &mut fmt::Formatter<'_>) -> fmt::Result {
        match self {
            Refusal::BadOption(name) => write!(f, "bad option {name}"),
            Refusal::Output => write!(f, "output"),
        }
    }
}

#[derive(Clone, Copy)]
pub enum ModelName {
    Hop,
    Phold,
    Stations,
}

#[derive(Clone, Copy)]
pub enum Synch {
    Sequential,
    TimeWarp,
}

#[derive(Clone, Copy)]
pub enum QueueName {
    Heap,
    Wheel,
}

pub struct Options {
    pub model: ModelName,
    pub synch: Synch,
    pub workers: u32,
    pub lps: u32,
    pub end: u64,
    pub seed: u64,
    pub hop: Hop,
    pub phold: Phold,
    pub stations: Stations,
    pub text: Version,
    pub queue: QueueName,
}

pub enum Request {
    Help,
    Run(Options),
}

/// Reads the words after the program's name.
pub fn read(words: &[String]) -> Result<Request, Refusal> {
    let words: Vec<&str> = words.iter().map(String::as_str).collect();
    match words.as_slice() {
        ["run", options @ ..] => match Given::read(options)? {
            Some(given) => Ok(Request::Run(given.options()?)),
            None => Ok(Request::Help),
        },
        ["help"] | ["help", "run"] => Ok(Request::Help),
        [first, ..] if is_help(first) => Ok(Request::Help),
        _ => Err(Refusal::BadOption("command-line")),
    }
}

fn is_help(word: &str) -> bool {
    matches!(word, "-h" | "--help")
}

/// The text that each option was given, in the order of the names.
struct Given {
    texts: [Option<String>; NAMES.len()],
}

impl Given {
    /// Reads `--NAME VALUE` and `--NAME=VALUE`, each name at most once. None where help is asked for.
    fn read(words: &[&str]) -> Result<Option<Given>, Refusal> {
        const BAD: Refusal = Refusal::BadOption("command-line");
        let mut given = Given { texts: Default::default() };
        let mut words = words.iter();
        while let Some(word) = words.next() {
            if is_help(word) {
                return Ok(None);
            }
            let option = word.strip_prefix("--").ok_or(BAD)?;
            let (name, value) = match option.split_once('=') {
                Some((name, value)) => (name, value),
                // A word that looks like an option is no value.
                None => match words.next() {
                    Some(value) if !value.starts_with('-') || *value == "-" => (option, *value),
                    _ => return Err(BAD),
                },
            };
            let at = NAMES.iter().position(|known| *known == name).ok_or(BAD)?;
            if given.texts[at].replace(value.to_string()).is_some() {
                return Err(BAD);
            }
        }
        Ok(Some(given))
    }

    fn text(&self, name: &'static str) -> Option<&str> {
        let at = NAMES.iter().position(|known| *known == name)?;
        self.texts[at].as_deref()
    }

    /// A number is 1 to 20 decimal digits whose value is in the range.
    fn number(&self, name: &'static str, range: RangeInclusive<u64>, default: u64) -> Result<u64, Refusal> {
        let Some(text) = self.text(name) else {
            return Ok(default);
        };
        let is_number = (1..=20).contains(&text.len()) && text.bytes().all(|byte| byte.is_ascii_digit());
        match text.parse() {
            Ok(value) if is_number && range.contains(&value) => Ok(value),
            _ => Err(Refusal::BadOption(name)),
        }
    }

    /// As `number`, for a range below 2^32.
    fn small(&self, name: &'static str, range: RangeInclusive<u64>, default: u64) -> Result<u32, Refusal> {
        Ok(self.number(name, range, default)? as u32)
    }

    fn model(&self) -> Result<ModelName, Refusal> {
        match self.text("model") {
            None | Some("hop") => Ok(ModelName::Hop),
            Some("phold") => Ok(ModelName::Phold),
            Some("stations") => Ok(ModelName::Stations),
            Some(_) => Err(Refusal::BadOption("model")),
        }
    }

    fn synch(&self) -> Result<Synch, Refusal> {
        match self.number("synch", 1..=3, 1)? {
            1 => Ok(Synch::Sequential),
            3 => Ok(Synch::TimeWarp),
            _ => Err(Refusal::BadOption("synch")),
        }
    }

    fn version(&self) -> Result<Version, Refusal> {
        match self.number("text", 1..=2, 2)? {
            1 => Ok(Version::One),
            _ => Ok(Version::Two),
        }
    }

    fn queue(&self) -> Result<QueueName, Refusal> {
        match self.text("queue") {
            None | Some("heap") => Ok(QueueName::Heap),
            Some("wheel") => Ok(QueueName::Wheel),
            Some(_) => Err(Refusal::BadOption("queue")),
        }
    }

    /// Every option is tested, whether its model is used or not, in the order of the names.
    fn options(&self) -> Result<Options, Refusal> {
        let options = Options {
            model: self.model()?,
            synch: self.synch()?,
            workers: self.small("workers", 1..=256, 1)?,
            lps: self.small("lps", 1..=65_536, 2)?,
            end: self.number("end", 1..=1 << 62, 10)?,
            seed: self.number("seed", 0..=u64::MAX, 0)?,
            hop: Hop {
                hops: self.small("hops", 0..=1_000_000, 2)?,
                stride: self.small("stride", 0..=65_535, 1)?,
                delay: self.number("delay", 1..=1_000_000, 2)?,
                rise: self.small("rise", 0..=255, 0)?,
            },
            phold: Phold {
                population: self.small("population", 0..=16, 1)?,
                remote: self.number("remote", 0..=100, 0)?,
                lookahead: self.number("lookahead", 1..=1_000_000, 1)?,
                span: self.number("span", 1..=1_000_000, 1)?,
            },
            stations: Stations {
                jobs: self.number("jobs", 0..=1_000, 1)?,
                service: self.number("service", 1..=1_000_000, 1)?,
                travel: self.number("travel", 1..=1_000_000, 1)?,
            },
            text: {
                // Workers take turns in twarp alone.
                self.number("turns", 1..=1 << 63, 10_000_000)?;
                self.version()?
            },
            queue: self.queue()?,
        };
        Ok(options)
    }
}
