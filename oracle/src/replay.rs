//! The replay: calls from a fixed seed and what the Rust answers, for the proved program of
//! `crates/replay`. Nothing here asks the library or a model.

use std::collections::BTreeMap;
use std::fmt::Display;
use std::path::{Path, PathBuf};
use std::{fs, io};

use crate::{replay_histories, replay_texts, Totals};

/// Calls and their answers, line by line: line n of the one answers line n of the other.
#[derive(Default)]
pub struct Script {
    calls: String,
    answers: String,
    /// How often each call is made.
    made: BTreeMap<&'static str, u64>,
}

impl Script {
    /// A call that the Rust answers.
    pub fn ask(&mut self, call: &'static str, arguments: impl Display, answer: impl Display) {
        *self.made.entry(call).or_default() += 1;
        self.line(call, arguments, answer);
    }

    /// From here on the store is a new one. The Rust has no such call, so it is no answer of it.
    pub fn open(&mut self, kind: &'static str) {
        self.line("open", kind, "opened");
    }

    fn line(&mut self, call: &'static str, arguments: impl Display, answer: impl Display) {
        let (arguments, answer) = (arguments.to_string(), answer.to_string());
        let is_line = |text: &str| !text.contains('\n');
        assert!(is_line(&arguments) && is_line(&answer), "a call is a line");
        let gap = if arguments.is_empty() { "" } else { " " };
        self.calls += &format!("{call}{gap}{arguments}\n");
        self.answers += &format!("{answer}\n");
    }

    fn print_counts(&self) {
        for (call, made) in &self.made {
            println!("{call}: {made}");
        }
        println!("answers: {}", self.made.values().sum::<u64>());
    }
}

/// The whole script. The seeds are fixed, and no answer depends on the order of a hash table.
fn script() -> Script {
    let mut script = Script::default();
    replay_texts::ask(&mut script);
    replay_histories::ask(&mut script);
    script
}

fn folder() -> PathBuf {
    Path::new(env!("CARGO_MANIFEST_DIR")).join("../crates/replay")
}

/// Writes the two files.
pub fn write() -> io::Result<()> {
    let script = script();
    fs::write(folder().join("stdin"), &script.calls)?;
    fs::write(folder().join("stdout"), &script.answers)?;
    script.print_counts();
    Ok(())
}

/// Whether the two files are what would be written today, line by line.
pub fn check() -> io::Result<Totals> {
    let script = script();
    script.print_counts();
    let calls = fs::read_to_string(folder().join("stdin"))?;
    let answers = fs::read_to_string(folder().join("stdout"))?;
    let mut totals = Totals::default();
    let mut held = calls.split('\n').zip(answers.split('\n'));
    for made in script.calls.lines().zip(script.answers.lines()) {
        let held = held.next().unwrap_or_default();
        totals.count((held != made).then(|| format!("the files have {held:?}, made is {made:?}")));
    }
    let is_whole = calls.len() == script.calls.len() && answers.len() == script.answers.len();
    totals.count((!is_whole).then(|| "the files are longer or shorter".into()));
    Ok(totals)
}
