//! The commands: see `USAGE`.

use std::io::{self, BufWriter, Read, Write};
use std::process::ExitCode;
use std::time::{SystemTime, UNIX_EPOCH};

use reference::compare::{self, Comparison, Difference};
use reference::count::Counts;
use reference::generate::{Generator, Journals};
use reference::{hex, journal, script};

const USAGE: &str = "usage: reference run
       reference record
       reference replay [--count]
       reference unhex
       reference generate SEED LISTS LENGTH [--without-translate] [--count]
       reference generate-journal SEED LENGTH
       reference compare N PROGRAM [--seed S] [--without-translate]
       reference compare-record N PROGRAM [--seed S]
       reference compare-replay N PROGRAM [--seed S]";

/// The exit status for a wrong command line, or for an error of the system.
const TROUBLE: u8 = 2;

fn main() -> ExitCode {
    let arguments: Vec<String> = std::env::args().skip(1).collect();
    let words: Vec<&str> = arguments.iter().map(String::as_str).collect();
    let command = match words[..] {
        ["run"] => run(),
        ["record"] => record(),
        ["replay"] => replay(),
        ["replay", "--count"] => count_journal(),
        ["unhex"] => unhex(),
        ["generate", ref rest @ ..] => generate(rest),
        ["generate-journal", seed, length] => generate_journal(seed, length),
        ["compare", ref rest @ ..] => compare(rest),
        ["compare-record", ref rest @ ..] => compare_record(rest),
        ["compare-replay", ref rest @ ..] => compare_replay(rest),
        _ => Err(usage()),
    };
    command.unwrap_or_else(|error| {
        eprintln!("{error}");
        ExitCode::from(TROUBLE)
    })
}

fn usage() -> io::Error {
    io::Error::new(io::ErrorKind::InvalidInput, USAGE)
}

fn run() -> io::Result<ExitCode> {
    script::run(io::stdin().lock(), BufWriter::new(io::stdout().lock()))?;
    Ok(ExitCode::SUCCESS)
}

fn record() -> io::Result<ExitCode> {
    let halt = journal::record(io::stdin().lock(), BufWriter::new(io::stdout().lock()))?;
    if let Some(halt) = halt {
        eprintln!("{halt}");
    }
    Ok(ExitCode::from(u8::from(halt.is_some())))
}

fn replay() -> io::Result<ExitCode> {
    journal::replay(io::stdin().lock(), BufWriter::new(io::stdout().lock()))?;
    Ok(ExitCode::SUCCESS)
}

/// Counts the answers of the journal on standard input; the status is 1 if one does not come.
fn count_journal() -> io::Result<ExitCode> {
    let mut counts = Counts::new(true);
    let mut journal = Vec::new();
    io::stdin().lock().read_to_end(&mut journal)?;
    counts.add_journal(&journal);
    print!("{counts}");
    Ok(ExitCode::from(u8::from(!counts.every_answer())))
}

/// Writes the bytes of a text of hexadecimal words.
fn unhex() -> io::Result<ExitCode> {
    let mut text = String::new();
    io::stdin().lock().read_to_string(&mut text)?;
    let bytes = hex::read(&text).map_err(|line| {
        let message = format!("line {line}: a word is no bytes in hexadecimal");
        io::Error::new(io::ErrorKind::InvalidData, message)
    })?;
    io::stdout().lock().write_all(&bytes)?;
    Ok(ExitCode::SUCCESS)
}

fn generate(arguments: &[&str]) -> io::Result<ExitCode> {
    let mut with_translate = true;
    let mut count = false;
    let mut numbers = Vec::new();
    for argument in arguments {
        match *argument {
            "--without-translate" => with_translate = false,
            "--count" => count = true,
            number => numbers.push(number.parse::<u64>().map_err(|_| usage())?),
        }
    }
    let [seed, lists, length] = numbers[..] else {
        return Err(usage());
    };
    let mut generator = Generator::new(seed, with_translate);
    let mut counts = Counts::new(with_translate);
    let mut output = BufWriter::new(io::stdout().lock());
    for index in 0..lists {
        let list = generator.list(index, length);
        if count {
            counts.add(&list);
        } else {
            output.write_all(&list)?;
        }
    }
    if count {
        write!(output, "{counts}")?;
    }
    output.flush()?;
    Ok(ExitCode::from(u8::from(count && !counts.complete())))
}

/// Writes a journal of the calls of the script on standard input, and of random ones after them.
fn generate_journal(seed: &str, length: &str) -> io::Result<ExitCode> {
    let seed = seed.parse().map_err(|_| usage())?;
    let length = length.parse().map_err(|_| usage())?;
    let mut script = Vec::new();
    io::stdin().lock().read_to_end(&mut script)?;
    let journal = Journals::new(seed).long_journal(&script, length);
    io::stdout().lock().write_all(&journal)?;
    Ok(ExitCode::SUCCESS)
}

/// What is to be compared.
struct Task<'a> {
    calls: u64,
    program: &'a str,
    seed: u64,
}

fn task<'a>(arguments: &[&'a str]) -> io::Result<Task<'a>> {
    let mut seed = None;
    let mut words = Vec::new();
    let mut rest = arguments.iter();
    while let Some(argument) = rest.next() {
        match *argument {
            "--seed" => {
                let number = rest.next().and_then(|text| text.parse().ok());
                seed = Some(number.ok_or_else(usage)?);
            }
            word => words.push(word),
        }
    }
    let [calls, program] = words[..] else {
        return Err(usage());
    };
    let calls = calls.parse().map_err(|_| usage())?;
    Ok(Task { calls, program, seed: seed.unwrap_or_else(seed_from_clock) })
}

fn seed_from_clock() -> u64 {
    SystemTime::now().duration_since(UNIX_EPOCH).map_or(0, |since| since.as_nanos() as u64)
}

fn compare(arguments: &[&str]) -> io::Result<ExitCode> {
    let is_flag = |word: &&str| *word == "--without-translate";
    let with_translate = !arguments.iter().any(is_flag);
    let rest: Vec<&str> = arguments.iter().copied().filter(|word| !is_flag(word)).collect();
    let task = task(&rest)?;
    let result = compare::compare(task.calls, task.program, task.seed, with_translate)?;
    let form = Form { input: "script", show_input: plain, show_output: plain };
    report(&task, &result, &form, ["calls", "lists"])
}

fn compare_record(arguments: &[&str]) -> io::Result<ExitCode> {
    let task = task(arguments)?;
    let result = compare::compare_record(task.calls, task.program, task.seed)?;
    let form = Form { input: "script", show_input: plain, show_output: as_hex };
    report(&task, &result, &form, ["records", "scripts"])
}

fn compare_replay(arguments: &[&str]) -> io::Result<ExitCode> {
    let task = task(arguments)?;
    let result = compare::compare_replay(task.calls, task.program, task.seed)?;
    let form = Form { input: "journal", show_input: as_hex, show_output: plain };
    report(&task, &result, &form, ["records", "journals"])
}

/// How the input and the outputs of a difference are shown.
struct Form {
    input: &'static str,
    show_input: fn(&[u8]) -> Vec<u8>,
    show_output: fn(&[u8]) -> Vec<u8>,
}

fn plain(bytes: &[u8]) -> Vec<u8> {
    bytes.to_vec()
}

fn as_hex(journal: &[u8]) -> Vec<u8> {
    hex::show(journal).into_bytes()
}

/// Prints the difference if there is one, and a line that counts.
fn report(
    task: &Task,
    result: &Comparison,
    form: &Form,
    [calls, lists]: [&str; 2],
) -> io::Result<ExitCode> {
    let mut output = io::stdout().lock();
    if let Some(difference) = &result.difference {
        print_difference(&mut output, task.program, difference, form)?;
    }
    let differences = match result.difference {
        None => "0 differences",
        Some(_) => "1 difference",
    };
    writeln!(
        output,
        "{} {calls} in {} {lists} from seed {}: {differences}",
        result.calls, result.lists, task.seed
    )?;
    Ok(ExitCode::from(u8::from(result.difference.is_some())))
}

fn print_difference(
    output: &mut impl Write,
    program: &str,
    difference: &Difference,
    form: &Form,
) -> io::Result<()> {
    writeln!(output, "{}:", form.input)?;
    output.write_all(&(form.show_input)(&difference.input))?;
    writeln!(output, "\nreference:")?;
    output.write_all(&(form.show_output)(&difference.reference))?;
    writeln!(output, "\n{program}:")?;
    output.write_all(&(form.show_output)(&difference.program))?;
    writeln!(output)
}
