//! `differ [--wrapped] BRIDGE INPUTS`: compares the entries behind a bridge, or the bridge's wrapper of them, with the
//! independent answers. INPUTS is one of
//!   seeds COUNT [FIRST]   so many generated inputs, by seed
//!   largest COUNT         so many of the largest sheets, of each kind in turn
//!   cases                 the cases made by hand, and a sheet spoiled at each field; the short ones with every room
//!   changes FILE..        each sheet, every truncation of it and every change of one of its bytes
//! BRIDGE is a program, with its arguments if there are blanks; one is started for each core. Prints what was answered
//! by code, each difference, and last `N passed, M failed`; the exit status is 1 if any failed.

mod calls;
mod inputs;
mod tally;

use calls::Calls;
use independent::bridge::{start, Call};
use inputs::Inputs;
use std::io::{BufReader, Read, Write};
use std::process::ExitCode;
use std::sync::mpsc::{sync_channel, Receiver, SyncSender};
use std::sync::Mutex;
use std::thread;
use tally::Tally;

/// How many inputs' frames are written at once.
const BATCH: usize = 16;

fn main() -> ExitCode {
    let words: Vec<String> = std::env::args().skip(1).collect();
    let usage = "usage: differ [--wrapped] BRIDGE seeds COUNT [FIRST] | largest COUNT | cases | changes FILE..";
    let wrapped = words.first().is_some_and(|word| word == "--wrapped");
    let (bridge, rest) = words[usize::from(wrapped)..].split_first().expect(usage);
    let calls = Calls { inputs: Inputs::named(rest).expect(usage), wrapped };
    let tally = Mutex::new(Tally::default());
    let cores = thread::available_parallelism().map_or(1, usize::from);
    thread::scope(|scope| {
        for core in 0..cores {
            let share = (core as u64..calls.inputs.count()).step_by(cores);
            let (calls, tally) = (&calls, &tally);
            scope.spawn(move || compare(bridge, calls, share, tally));
        }
    });
    let tally = tally.into_inner().unwrap();
    tally.print();
    ExitCode::from(u8::from(tally.failed > 0))
}

/// Runs one bridge on its share of the inputs.
fn compare(bridge: &str, calls: &Calls, share: impl Iterator<Item = u64> + Send, tally: &Mutex<Tally>) {
    let mut child = start(bridge);
    let frames = child.stdin.take().expect("the bridge's input");
    let answers = child.stdout.take().expect("the bridge's output");
    let (sender, receiver) = sync_channel(8);
    thread::scope(|scope| {
        scope.spawn(move || send(frames, calls, share, sender));
        check(answers, receiver, tally);
    });
    let ended = child.wait().expect("the bridge ends");
    if !ended.success() {
        tally.lock().unwrap().fail(format!("the bridge ended with {ended}"));
    }
}

/// Writes the frames in batches. The calls of a batch are handed over before its frames are written, so every
/// answer is being waited for and neither side of the pipe blocks the other. If the bridge takes no more, the calls
/// are handed over all the same and fail for want of an answer.
fn send(mut frames: impl Write, calls: &Calls, share: impl Iterator<Item = u64>, sender: SyncSender<Vec<Call>>) {
    let mut share = share.peekable();
    while share.peek().is_some() {
        let (mut batch, mut bytes) = (Vec::new(), Vec::new());
        for place in share.by_ref().take(BATCH) {
            calls.add(place, &mut batch, &mut bytes);
        }
        sender.send(batch).expect("the answers are being read");
        let _ = frames.write_all(&bytes).and_then(|()| frames.flush());
    }
}

/// Reads the bridge's answers and compares them.
fn check(answers: impl Read, calls: Receiver<Vec<Call>>, tally: &Mutex<Tally>) {
    let mut answers = BufReader::with_capacity(1 << 16, answers);
    for call in calls.into_iter().flatten() {
        let difference = call.difference(&mut answers);
        tally.lock().unwrap().count(&call, difference);
    }
}
