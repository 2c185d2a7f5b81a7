//! A plain simulator of the models of `twarp`, to measure `twarp` against.
//!
//! It reads the same options, refuses the same words with the same line and status, and prints the same text of
//! records. Nothing in it is proved: it is what a Rust programmer would write for speed with the standard library alone.
//! It has one option of its own, `--queue`, which chooses the sequential simulator's queue of pending events.

mod model;
mod models;
mod options;
mod queue;
mod sequential;
mod text;
mod time_warp;
mod words;

use model::{Config, Model};
use options::{ModelName, Options, QueueName, Refusal, Request, Synch};
use queue::{HeapQueue, WheelQueue};
use std::io::{self, Write};
use std::process::ExitCode;
use text::RecordWriter;

fn main() -> ExitCode {
    let answer = words_of_command_line().and_then(|words| answer(&words));
    match answer {
        Ok(()) => ExitCode::SUCCESS,
        Err(refusal) => {
            // Standard error may be closed, which changes no status.
            let _ = writeln!(io::stderr(), "twarp: refused {} {refusal}", refusal.number());
            ExitCode::from(refusal.status())
        }
    }
}

/// The words after the program's name.
fn words_of_command_line() -> Result<Vec<String>, Refusal> {
    std::env::args_os().skip(1).map(|word| word.into_string().map_err(|_| Refusal::BadOption("command-line"))).collect()
}

fn answer(words: &[String]) -> Result<(), Refusal> {
    let options = match options::read(words)? {
        Request::Run(options) => options,
        Request::Help => return io::stdout().write_all(options::HELP.as_bytes()).map_err(|_| Refusal::Output),
    };
    let written = match options.model {
        ModelName::Hop => run(&options.hop, &options),
        ModelName::Phold => run(&options.phold, &options),
        ModelName::Stations => run(&options.stations, &options),
    };
    written.map_err(|_| Refusal::Output)
}

/// Simulates the model and prints its records.
fn run<M: Model>(model: &M, options: &Options) -> io::Result<()> {
    let config = Config { lps: options.lps, end: options.end, seed: options.seed };
    let mut records = RecordWriter::new(io::stdout().lock(), options.text);
    match (options.synch, options.queue) {
        (Synch::Sequential, QueueName::Heap) => sequential::run(model, &config, HeapQueue::new(), &mut records)?,
        (Synch::Sequential, QueueName::Wheel) => sequential::run(model, &config, WheelQueue::new(), &mut records)?,
        (Synch::TimeWarp, _) => time_warp::run(model, &config, options.workers, &mut records)?,
    }
    records.flush()
}
