//! The traces as octets and text, and tests of a program by them.

use std::io::{self, Write};
use std::path::Path;
use std::process::ExitCode;
use std::time::Duration;
use std::{env, fs};

use traces::packet::NUMBERS;
use traces::program::Program;
use traces::run;
use traces::trace::{rewritten, Trace};

const USAGE: &str = "usage:
  traces octets FILE               what replay reads
  traces expected FILE             what it must print
  traces rewrite FILE..            writes the octets into trace files anew
  traces table FOLDER              which trace reaches which answer
  traces run FOLDER INPUTS WORD..  tests the program of these words: every trace,
                                   INPUTS random inputs, INPUTS changed traces,
                                   and inputs that are long, cut or unreadable";

/// A run that takes longer does not end by itself.
const LIMIT: Duration = Duration::from_secs(30);

fn main() -> ExitCode {
    let words: Vec<String> = env::args().skip(1).collect();
    match done(&words) {
        Ok(right) => ExitCode::from(u8::from(!right)),
        Err(why) => {
            eprintln!("{why}");
            ExitCode::from(2)
        }
    }
}

/// Does what the words say; false if a test failed.
fn done(words: &[String]) -> Result<bool, String> {
    let words: Vec<&str> = words.iter().map(String::as_str).collect();
    match &words[..] {
        ["octets", file] => print(&Trace::file(Path::new(file))?.input())?,
        ["expected", file] => print(Trace::file(Path::new(file))?.expected().as_bytes())?,
        ["rewrite", files @ ..] => files.iter().try_for_each(|file| rewrite(file))?,
        ["table", folder] => {
            for trace in Trace::all(Path::new(folder))? {
                println!("{}", trace.row());
            }
        }
        ["run", folder, inputs, words @ ..] => return test(folder, inputs, words),
        _ => return Err(USAGE.into()),
    }
    Ok(true)
}

fn print(octets: &[u8]) -> Result<(), String> {
    let printed = io::stdout().write_all(octets);
    printed.map_err(|error| error.to_string())
}

fn rewrite(file: &str) -> Result<(), String> {
    let text = fs::read_to_string(file).map_err(|error| format!("{file}: {error}"))?;
    let text = rewritten(&text, NUMBERS).map_err(|why| format!("{file}: {why}"))?;
    fs::write(file, text).map_err(|error| format!("{file}: {error}"))
}

fn test(folder: &str, inputs: &str, words: &[&str]) -> Result<bool, String> {
    let inputs = inputs.parse().map_err(|_| format!("'{inputs}' inputs?"))?;
    let traces = Trace::all(Path::new(folder))?;
    let program = Program {
        words: words.iter().map(|word| word.to_string()).collect(),
        limit: LIMIT,
    };
    let (passed, failed) = run::all(&program, &traces, inputs);
    println!("{passed} passed, {failed} failed");
    Ok(failed == 0)
}
