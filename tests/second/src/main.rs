//! Commands of the second program; see USAGE.

use std::io::{self, BufWriter, Write};
use std::path::Path;
use std::process::ExitCode;

use second::bench::{self, TableEngine};
use second::ledger::Ledger;
use second::{check, decode, header, header_samples, hex, lines, recording, samples, scripts, tag};

const USAGE: &str = "usage:
  second bench                          recorded lines in, answers by the table
  second bench-ledger                   the same, answers by the ledger
  second recording SEED LINES           a random recording for the bench
  second headers SEED COUNT             random fragment headers in hex
  second header-answers                 headers in, their fields out
  second header-fields SEED COUNT       random fields for `written`
  second written                        LAST NUMBER COUNTER ROOM in, headers out
  second check-joining SEED COUNT       random call lists, table against ledger
  second messages SEED COUNT            random messages in hex
  second decode                         messages in, their fields out
  second tag                            a script in, an answer for each call out
  second script SEED                    a random script for the tag
  second scripts SEED COUNT FOLDER      those of COUNT seeds, SEED.stdin, and their answers, SEED.stdout";

/// Longest line of `header-answers` and `written`.
const SHORT_LINE: usize = 80;

fn main() -> ExitCode {
    let arguments: Vec<String> = std::env::args().skip(1).collect();
    let words: Vec<&str> = arguments.iter().map(String::as_str).collect();
    match command(&words) {
        Ok(code) => code,
        Err(error) if error.kind() == io::ErrorKind::BrokenPipe => ExitCode::SUCCESS,
        Err(error) => {
            eprintln!("second: {error}");
            ExitCode::FAILURE
        }
    }
}

fn command(words: &[&str]) -> io::Result<ExitCode> {
    let input = io::stdin().lock();
    let mut output = BufWriter::with_capacity(1 << 16, io::stdout().lock());
    match words {
        ["bench"] => bench::run(input, &mut output, &mut TableEngine::default())?,
        ["bench-ledger"] => bench::run(input, &mut output, &mut Ledger::default())?,
        ["decode"] => decode::run(input, &mut output)?,
        ["tag"] => tag::run(input, &mut output)?,
        ["script", seed] => return script(seed, &mut output),
        ["scripts", seed, count, folder] => return script_files(seed, count, folder),
        ["header-answers"] => answer_lines(input, &mut output, header_answer)?,
        ["written"] => answer_lines(input, &mut output, written_header)?,
        [name, seed, count] => return seeded(name, seed, count, &mut output),
        _ => return Ok(usage()),
    }
    output.flush()?;
    Ok(ExitCode::SUCCESS)
}

fn usage() -> ExitCode {
    eprintln!("{USAGE}");
    ExitCode::from(2)
}

fn seeded(name: &str, seed: &str, count: &str, output: &mut impl Write) -> io::Result<ExitCode> {
    let (Ok(seed), Ok(count)) = (seed.parse(), count.parse()) else {
        return Ok(usage());
    };
    match name {
        "recording" => recording::write(seed, count, output)?,
        "headers" => header_samples::write_headers(seed, count, output)?,
        "header-fields" => header_samples::write_header_fields(seed, count, output)?,
        "messages" => samples::write_messages(seed, count, output)?,
        "check-joining" => return check_joining(seed, count, output),
        _ => return Ok(usage()),
    }
    output.flush()?;
    Ok(ExitCode::SUCCESS)
}

fn script(seed: &str, output: &mut impl Write) -> io::Result<ExitCode> {
    let Ok(seed) = seed.parse() else {
        return Ok(usage());
    };
    output.write_all(&scripts::script(seed))?;
    output.flush()?;
    Ok(ExitCode::SUCCESS)
}

fn script_files(seed: &str, count: &str, folder: &str) -> io::Result<ExitCode> {
    let (Ok(seed), Ok(count)) = (seed.parse(), count.parse()) else {
        return Ok(usage());
    };
    scripts::write_files(seed, count, Path::new(folder))?;
    Ok(ExitCode::SUCCESS)
}

fn check_joining(seed: u64, lists: usize, output: &mut impl Write) -> io::Result<ExitCode> {
    let code = match check::check_joining(seed, lists) {
        Ok(calls) => {
            writeln!(output, "seed {seed} lists {lists} calls {calls} differences 0")?;
            ExitCode::SUCCESS
        }
        Err(difference) => {
            writeln!(output, "seed {seed} {difference}")?;
            ExitCode::FAILURE
        }
    };
    output.flush()?;
    Ok(code)
}

/// Prints an answer for each line, `refused-0` for one not of the form.
fn answer_lines(
    mut input: impl io::Read,
    output: &mut impl Write,
    answer: fn(&[u8]) -> Option<String>,
) -> io::Result<()> {
    lines::for_each(&mut input, SHORT_LINE, |line| {
        let text = line.and_then(answer);
        writeln!(output, "{}", text.as_deref().unwrap_or("refused-0"))
    })
}

fn header_answer(line: &[u8]) -> Option<String> {
    let mut room = [0; SHORT_LINE / 2];
    let length = hex::read(line, &mut room)?;
    Some(header::reading_text(&room[..length]))
}

fn written_header(line: &[u8]) -> Option<String> {
    let fields: Vec<&[u8]> = line.split(|character| *character == b' ').collect();
    let [last, number, counter, room] = fields[..] else {
        return None;
    };
    let last = match last {
        b"0" => false,
        b"1" => true,
        _ => return None,
    };
    let (number, counter) = (bench::decimal(number)?, bench::decimal(counter)?);
    Some(header::writing_text(last, number, counter, bench::decimal(room)? as usize))
}
