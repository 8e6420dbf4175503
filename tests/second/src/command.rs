//! The commands: make, check, show and tally.

use crate::answer::answer;
use crate::call::{framed, Call, KIND_NAMES, MOST_PAYLOAD};
use crate::generator::Calls;
use crate::readable::{answer_text, call_text, first_difference};
use std::collections::BTreeMap;
use std::fs::File;
use std::io::{self, BufReader, BufWriter, Read, Write};
use std::process::ExitCode;

const USAGE: &str = "\
second make  --seed S --calls N --in FILE --out FILE   writes the calls and their answers
second check --seed S --calls N [--answers FILE]       compares answers (or standard input)
second show  --seed S --call I                         one call and its answer in words
second tally --seed S --calls N                        how often each call is answered how
";

/// Why a command did not end well.
enum Failure {
    /// The answers differ from document 01's: status 1.
    Difference(String),
    /// The command could not be carried out: status 2.
    Trouble(String),
}

impl From<io::Error> for Failure {
    fn from(error: io::Error) -> Failure {
        Failure::Trouble(error.to_string())
    }
}

/// The options after the name of the command.
struct Options(BTreeMap<String, String>);

impl Options {
    fn of(arguments: &[String]) -> Result<Options, Failure> {
        let mut options = BTreeMap::new();
        for pair in arguments.chunks(2) {
            let [name, value] = pair else {
                return Err(Failure::Trouble(format!("{} has no value\n{USAGE}", pair[0])));
            };
            options.insert(name.clone(), value.clone());
        }
        Ok(Options(options))
    }

    fn text(&self, name: &str) -> Result<&str, Failure> {
        let missing = || Failure::Trouble(format!("{name} is missing\n{USAGE}"));
        self.0.get(name).map(String::as_str).ok_or_else(missing)
    }

    fn number(&self, name: &str) -> Result<u64, Failure> {
        let text = self.text(name)?;
        text.parse().map_err(|_| Failure::Trouble(format!("{name} {text} is not a whole number")))
    }

    fn calls(&self) -> Result<Calls, Failure> {
        Ok(Calls::of_seed(self.number("--seed")?))
    }
}

/// Writes the stream of calls and the stream of answers.
fn make(options: &Options) -> Result<(), Failure> {
    let calls = options.calls()?;
    let mut questions = BufWriter::new(File::create(options.text("--in")?)?);
    let mut answers = BufWriter::new(File::create(options.text("--out")?)?);
    for index in 0..options.number("--calls")? as usize {
        let call = calls.call(index);
        let payload = call.payload();
        assert!(payload.len() <= MOST_PAYLOAD, "call {index} is too long");
        questions.write_all(&framed(&payload))?;
        answers.write_all(&framed(&answer(&call)))?;
    }
    questions.flush()?;
    answers.flush()?;
    Ok(())
}

/// The answers to be checked, from a file or from standard input.
fn given_answers(options: &Options) -> Result<Box<dyn Read>, Failure> {
    Ok(match options.0.get("--answers") {
        Some(name) => Box::new(BufReader::new(File::open(name)?)),
        None => Box::new(BufReader::new(io::stdin())),
    })
}

/// The next answer of a stream; `None` when the stream ends before or inside it.
fn next_answer(stream: &mut dyn Read) -> Result<Option<Vec<u8>>, Failure> {
    let mut length = [0; 2];
    if !fill_up(stream, &mut length)? {
        return Ok(None);
    }
    let mut bytes = vec![0; usize::from(u16::from_le_bytes(length))];
    Ok(fill_up(stream, &mut bytes)?.then_some(bytes))
}

/// Fills the buffer; false when the stream ends first.
fn fill_up(stream: &mut dyn Read, buffer: &mut [u8]) -> Result<bool, Failure> {
    match stream.read_exact(buffer) {
        Ok(()) => Ok(true),
        Err(error) if error.kind() == io::ErrorKind::UnexpectedEof => Ok(false),
        Err(error) => Err(error.into()),
    }
}

/// Makes the same calls again and compares; fails at the first difference.
fn check(options: &Options) -> Result<(), Failure> {
    let calls = options.calls()?;
    let (seed, count) = (options.number("--seed")?, options.number("--calls")? as usize);
    let mut given = given_answers(options)?;
    for index in 0..count {
        let call = calls.call(index);
        let expected = answer(&call);
        let found = next_answer(given.as_mut())?;
        if found.as_ref() == Some(&expected) {
            continue;
        }
        return Err(Failure::Difference(difference(
            seed,
            index,
            &call,
            &expected,
            found.as_deref(),
        )));
    }
    if given.read(&mut [0])? != 0 {
        return Err(Failure::Difference(format!("seed {seed}: bytes after the {count} answers\n")));
    }
    println!("seed {seed}: {count} calls agree");
    Ok(())
}

/// A difference in words: the call, both answers, and where they part.
fn difference(
    seed: u64,
    index: usize,
    call: &Call,
    expected: &[u8],
    found: Option<&[u8]>,
) -> String {
    let given = match found {
        Some(bytes) => answer_text(call, bytes) + &first_difference(expected, bytes),
        None => "  the stream of answers ends before or inside this answer\n".to_string(),
    };
    let (asked, expected) = (call_text(call), answer_text(call, expected));
    format!("seed {seed}, call {index}: {asked}expected\n{expected}given\n{given}")
}

/// One call and its answer in words.
fn show(options: &Options) -> Result<(), Failure> {
    let (seed, index) = (options.number("--seed")?, options.number("--call")? as usize);
    let call = options.calls()?.call(index);
    let expected = answer_text(&call, &answer(&call));
    print!("seed {seed}, call {index}: {}answer\n{expected}", call_text(&call));
    Ok(())
}

/// How often each kind of call is answered how.
fn tally(options: &Options) -> Result<(), Failure> {
    let calls = options.calls()?;
    let mut counts: BTreeMap<(u8, String), usize> = BTreeMap::new();
    for index in 0..options.number("--calls")? as usize {
        let call = calls.call(index);
        let text = answer_text(&call, &answer(&call));
        *counts.entry((call.kind(), heading(&text))).or_default() += 1;
    }
    println!("{} calls stand before the random ones", calls.fixed_count());
    for ((kind, heading), count) in counts {
        println!("{:<14} {heading:<22} {count}", KIND_NAMES[usize::from(kind) - 1]);
    }
    Ok(())
}

/// The first words of an answer, without its place.
fn heading(text: &str) -> String {
    let line = text.trim_start().lines().next().unwrap_or_default();
    let words: Vec<&str> = line.trim_start_matches("writes \"").split(' ').take(2).collect();
    if words[0] == "part" {
        return line.split(',').next().unwrap_or_default().to_string();
    }
    if words[0] == "writes" {
        "writes a sheet".to_string()
    } else {
        words.join(" ")
    }
}

/// Carries out a command: status 0, 1 at a difference, 2 at trouble.
pub fn run(arguments: &[String]) -> ExitCode {
    let (name, rest) = match arguments.split_first() {
        Some((name, rest)) => (name.as_str(), rest),
        None => ("", arguments),
    };
    let outcome = Options::of(rest).and_then(|options| match name {
        "make" => make(&options),
        "check" => check(&options),
        "show" => show(&options),
        "tally" => tally(&options),
        _ => Err(Failure::Trouble(USAGE.to_string())),
    });
    match outcome {
        Ok(()) => ExitCode::SUCCESS,
        Err(Failure::Difference(text)) => {
            print!("{text}");
            ExitCode::from(1)
        }
        Err(Failure::Trouble(text)) => {
            eprintln!("{text}");
            ExitCode::from(2)
        }
    }
}
