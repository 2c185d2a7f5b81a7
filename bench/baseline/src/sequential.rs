//! The sequential simulator: it executes the pending event of least key until none is left.

use crate::model::{Bits, Config, Model, Outgoing, When};
use crate::queue::EventQueue;
use crate::text::RecordWriter;
use crate::words::WordStream;
use std::io::{self, Write};

struct Process<S> {
    state: S,
    /// The number of the next send.
    number: u64,
    words: WordStream,
}

/// Simulates the model and writes each record when its event is executed.
pub fn run<M: Model, W: Write>(
    model: &M,
    config: &Config,
    mut pending: impl EventQueue<M::Payload>,
    records: &mut RecordWriter<W>,
) -> io::Result<()> {
    let mut out = Outgoing::new(config);
    let mut processes = start(model, config, &mut pending, &mut out);
    while let Some(event) = pending.pop() {
        let process = &mut processes[event.dest as usize];
        out.begin(event.dest, event.when(), process.number);
        let mut bits = Bits::default();
        model.forward(event.dest, event.payload, &mut process.state, &mut bits, &mut process.words, &mut out);
        process.number = out.number();
        for sent in out.sends() {
            pending.push(*sent);
        }
        if let Some(record) = out.record() {
            records.put(&record)?;
        }
    }
    Ok(())
}

/// The processes at time 0, in their order. What they send is pending.
fn start<M: Model>(
    model: &M,
    config: &Config,
    pending: &mut impl EventQueue<M::Payload>,
    out: &mut Outgoing<M::Payload>,
) -> Vec<Process<M::State>> {
    let mut processes = Vec::with_capacity(config.lps as usize);
    for lp in 0..config.lps {
        let mut words = WordStream::new(config.seed, lp);
        out.begin(lp, When::tick(0), 0);
        let state = model.start(lp, &mut words, out);
        for sent in out.sends() {
            pending.push(*sent);
        }
        processes.push(Process { state, number: out.number(), words });
    }
    processes
}
