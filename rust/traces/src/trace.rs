//! A file of `traces/`: what the program reads, and what it must print.
//!
//! `traces/README.md` gives the format. A line starts with
//! - `#`: words for the reader;
//! - a number or two, as `7` or `7-9`: the record, or records all alike, that
//!   have these numbers in the output, with the answer after `->`;
//! - two numbers and `repeat`: all records up to `done`, once for each n;
//! - `.`: a record in a repeat;
//! - `cut`: the octets of a record that is cut off;
//! - `end`: the last line of the output;
//! - a space: why the record above is answered so, or, after `=`, its octets.

use std::fmt::Write;
use std::fs;
use std::path::Path;

use crate::packet::{Numbers, NUMBERS};
use crate::record::Record;
use crate::words::{all_octets, narrow, split};

/// The highest answer number (document 01, Answer numbers).
const MOST_ANSWER: u8 = 16;

/// One record's octets, and the answer to it.
type Step = (Vec<u8>, u8);

/// What a trace file says.
#[derive(Clone, Debug, Default)]
pub struct Trace {
    /// The file's name without its ending.
    pub name: String,
    /// The file's first line.
    pub title: String,
    steps: Vec<Step>,
    /// Octets behind the last whole record.
    cut: Vec<u8>,
    /// The last word of the output.
    pub ending: String,
}

impl Trace {
    /// Every trace of a folder, by name.
    pub fn all(folder: &Path) -> Result<Vec<Trace>, String> {
        let entries = fs::read_dir(folder).map_err(|error| format!("{folder:?}: {error}"))?;
        let mut paths: Vec<_> = entries.flatten().map(|entry| entry.path()).collect();
        paths.retain(|path| path.extension().is_some_and(|ending| ending == "trace"));
        paths.sort();
        paths.iter().map(|path| Trace::file(path)).collect()
    }

    /// The trace in this file.
    pub fn file(path: &Path) -> Result<Trace, String> {
        let text = fs::read_to_string(path).map_err(|error| format!("{path:?}: {error}"))?;
        let trace = Trace::read(&text, NUMBERS).map_err(|why| format!("{path:?}: {why}"))?;
        let name = path.file_stem().unwrap_or_default().to_string_lossy();
        Ok(Trace {
            name: name.into(),
            ..trace
        })
    }

    /// The trace in this text.
    pub fn read(text: &str, numbers: Numbers) -> Result<Trace, String> {
        let mut reader = Reader::new(numbers);
        for (count, line) in (1..).zip(text.lines()) {
            let read = reader.line(line);
            read.map_err(|why| format!("line {count}: {why}"))?;
        }
        reader.finished()
    }

    /// What the program reads.
    pub fn input(&self) -> Vec<u8> {
        let records = self.steps.iter().flat_map(|(octets, _)| octets);
        records.chain(&self.cut).copied().collect()
    }

    /// What it must print.
    pub fn expected(&self) -> String {
        let mut text = String::from("rec answer\n");
        for (count, (_, answer)) in (1..).zip(&self.steps) {
            writeln!(text, "{count} {answer}").expect("a string takes all");
        }
        text + "end " + &self.ending + "\n"
    }

    /// How many records are whole.
    pub fn records(&self) -> usize {
        self.steps.len()
    }

    /// The answers that it reaches, each once, in order.
    pub fn answers(&self) -> Vec<u8> {
        let mut answers: Vec<u8> = self.steps.iter().map(|(_, answer)| *answer).collect();
        answers.sort_unstable();
        answers.dedup();
        answers
    }

    /// Its row in the table of `traces/README.md`.
    pub fn row(&self) -> String {
        let (name, title, records) = (&self.name, &self.title, self.records());
        let answers: Vec<String> = self.answers().iter().map(u8::to_string).collect();
        let (answers, ending) = (answers.join(", "), &self.ending);
        format!("| [{name}]({name}.trace) | {title} | {records} | {answers} | {ending} |")
    }
}

/// The words of one record, and the answer to it.
type Line = (Vec<String>, u8);

/// A repeat that is not done.
struct Repeat {
    last: usize,
    rounds: (u64, u64),
    lines: Vec<Line>,
}

/// A trace as far as it is read.
struct Reader {
    numbers: Numbers,
    trace: Trace,
    repeat: Option<Repeat>,
    explained: bool,
}

impl Reader {
    fn new(numbers: Numbers) -> Reader {
        Reader {
            numbers,
            trace: Trace::default(),
            repeat: None,
            explained: true,
        }
    }

    fn line(&mut self, line: &str) -> Result<(), String> {
        if !self.trace.ending.is_empty() {
            return Err("nothing may follow the end".into());
        }
        if line.is_empty() || line.starts_with('#') {
            let title = line.trim_start_matches(['#', ' ']);
            if self.trace.title.is_empty() {
                self.trace.title = title.into();
            }
            return Ok(());
        }
        if line.starts_with(' ') {
            self.explained |= !line.trim_start().starts_with('=');
            return refuse_if(line.contains("->"), "a record starts at the line's start");
        }
        let (first, rest) = line.split_once(' ').unwrap_or((line, ""));
        match first {
            "." => self.repeated(rest),
            "done" => self.done(),
            "cut" => all_octets(&split(rest)).map(|octets| self.trace.cut = octets),
            "end" => self.end(rest),
            _ if rest.trim_start().starts_with("repeat ") => self.begin(first, rest),
            _ => self.records(first, rest),
        }
    }

    /// One record, or several alike.
    fn records(&mut self, numbers: &str, line: &str) -> Result<(), String> {
        refuse_if(
            self.repeat.is_some(),
            "a record in a repeat starts with '.'",
        )?;
        let last = self.last_of(numbers)?;
        let line = self.answered(line)?;
        while self.trace.steps.len() < last {
            self.step(&line, 0)?;
        }
        Ok(())
    }

    fn begin(&mut self, numbers: &str, line: &str) -> Result<(), String> {
        refuse_if(self.repeat.is_some(), "a repeat in a repeat")?;
        self.repeat = Some(Repeat {
            last: self.last_of(numbers)?,
            rounds: rounds(line)?,
            lines: vec![],
        });
        Ok(())
    }

    fn repeated(&mut self, line: &str) -> Result<(), String> {
        let line = self.answered(line)?;
        let repeat = self.repeat.as_mut().ok_or("no repeat has begun")?;
        repeat.lines.push(line);
        Ok(())
    }

    fn done(&mut self) -> Result<(), String> {
        let repeat = self.repeat.take().ok_or("no repeat has begun")?;
        for round in repeat.rounds.0..=repeat.rounds.1 {
            for line in &repeat.lines {
                self.step(line, round)?;
            }
        }
        let count = self.trace.steps.len();
        refuse_if(
            count != repeat.last,
            &format!("the repeat ends with {count}"),
        )
    }

    fn end(&mut self, word: &str) -> Result<(), String> {
        let right = if self.trace.cut.is_empty() {
            "ok"
        } else {
            "short"
        };
        refuse_if(word != right, &format!("this trace ends with '{right}'"))?;
        refuse_if(!self.explained, "the last record has no reason")?;
        self.trace.ending = word.into();
        Ok(())
    }

    fn finished(self) -> Result<Trace, String> {
        refuse_if(self.repeat.is_some(), "a repeat is not done")?;
        refuse_if(self.trace.ending.is_empty(), "the end is missing")?;
        Ok(self.trace)
    }

    fn step(&mut self, (words, answer): &Line, round: u64) -> Result<(), String> {
        let record = Record::read(words, round, self.numbers)?;
        self.trace.steps.push((record.octets(), *answer));
        Ok(())
    }

    /// The last of a record's numbers, the first of which must follow what is
    /// read.
    fn last_of(&self, numbers: &str) -> Result<usize, String> {
        let (first, last) = numbers.split_once('-').unwrap_or((numbers, numbers));
        let next = self.trace.steps.len() + 1;
        let range: (usize, usize) = (narrow(first, 0)?, narrow(last, 0)?);
        refuse_if(
            range.0 != next || range.1 < next,
            &format!("the next record is {next}"),
        )?;
        Ok(range.1)
    }

    /// A record's words and its answer, when the one before has a reason.
    fn answered(&mut self, line: &str) -> Result<Line, String> {
        refuse_if(!self.explained, "the record before has no reason")?;
        self.explained = false;
        let (record, answer) = line.split_once("->").ok_or("no answer")?;
        let answer: u8 = narrow(answer.trim(), 0)?;
        refuse_if(answer > MOST_ANSWER, "no such answer")?;
        Ok((split(record), answer))
    }
}

/// The bounds of `repeat n = FIRST to LAST`.
fn rounds(line: &str) -> Result<(u64, u64), String> {
    match &split(line)[..] {
        [_, n, is, first, to, last]
            if (n.as_str(), is.as_str(), to.as_str()) == ("n", "=", "to") =>
        {
            Ok((narrow(first, 0)?, narrow(last, 0)?))
        }
        _ => Err("a repeat reads 'repeat n = FIRST to LAST'".into()),
    }
}

fn refuse_if(wrong: bool, why: &str) -> Result<(), String> {
    if wrong {
        Err(why.into())
    } else {
        Ok(())
    }
}

/// The text of a trace file with the octets of each record under it; in a
/// repeat these are of the first round.
pub fn rewritten(text: &str, numbers: Numbers) -> Result<String, String> {
    let mut new = String::new();
    let mut round = 0;
    for line in text.lines() {
        if line.trim_start().starts_with('=') {
            continue;
        }
        writeln!(new, "{line}").expect("a string takes all");
        let (first, rest) = line.split_once(' ').unwrap_or((line, ""));
        if first.is_empty() || first.starts_with('#') {
            continue;
        }
        if rest.trim_start().starts_with("repeat ") {
            round = rounds(rest)?.0;
        } else if let Some((record, _)) = rest.split_once("->") {
            let record = Record::read(&split(record), round, numbers)?;
            writeln!(new, "        = {}", record.shown()).expect("a string takes all");
        }
    }
    Ok(new)
}
