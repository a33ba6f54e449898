//! A second program for Kuvormagy's study files and lists of requests, written from its documents
//! alone.

mod against;
mod bench;
mod block;
mod buffer;
mod call;
mod cases;
mod corpus;
mod count;
mod damage;
mod facts;
mod file;
mod limits;
mod lists;
mod mesi;
mod neat;
mod play;
mod protocol;
mod race;
mod random;
mod report;
mod rows;
mod speed;
mod step;
mod table;
mod taste;
#[cfg(test)]
mod tests;
mod versus;
mod watch;
mod whole;

use std::fs::{self, File};
use std::io::{self, BufWriter, Read, Write};
use std::path::Path;
use std::process::ExitCode;

const USAGE: &str = "usage:
  second run [FILE]
  second generate SEED COUNT DIR
  second corpus SEED COUNT OUT
  second count CORPUS
  second against PROGRAM COUNT SEED [DIR]
  second requests
  second lists SEED COUNT OUT
  second count-lists FILE
  second against-lists PROGRAM COUNT SEED [DIR]
  second facts SEED OUT
  second studies DIR
  second bench [DIR PROGRAM]";

fn main() -> ExitCode {
    let arguments: Vec<String> = std::env::args().skip(1).collect();
    let arguments: Vec<&str> = arguments.iter().map(String::as_str).collect();
    match command(&arguments) {
        Ok(status) => status,
        Err(error) => {
            eprintln!("second: {error}");
            ExitCode::FAILURE
        }
    }
}

fn command(arguments: &[&str]) -> io::Result<ExitCode> {
    match *arguments {
        ["run"] => run(io::stdin().lock()),
        ["run", file] => run(File::open(file)?),
        ["generate", seed, count, folder] => {
            generate(number(seed)?, number(count)?, Path::new(folder))
        }
        ["corpus", seed, count, out] => {
            let mut out = BufWriter::new(File::create(out)?);
            corpus::write(&mut out, number(seed)?, number(count)?)?;
            Ok(ExitCode::SUCCESS)
        }
        ["count", corpus] => count(corpus),
        ["against", program, count, seed] => against(program, count, seed, "differ"),
        ["against", program, count, seed, folder] => against(program, count, seed, folder),
        ["requests"] => requests(io::stdin().lock()),
        ["lists", seed, count, out] => {
            fs::write(out, lists::draw::input(number(seed)?, 0..number(count)?))?;
            Ok(ExitCode::SUCCESS)
        }
        ["count-lists", file] => print(&lists::count::count(&fs::read(file)?)),
        ["against-lists", program, count, seed] => against_lists(program, count, seed, "differ"),
        ["against-lists", program, count, seed, folder] => {
            against_lists(program, count, seed, folder)
        }
        ["facts", seed, out] => {
            fs::write(out, facts::text(number(seed)?))?;
            Ok(ExitCode::SUCCESS)
        }
        ["studies", folder] => {
            speed::write_studies(Path::new(folder))?;
            Ok(ExitCode::SUCCESS)
        }
        ["bench"] => print(&speed::table()),
        ["bench", folder, program] => print(&versus::table(Path::new(folder), Path::new(program))?),
        _ => {
            eprintln!("{USAGE}");
            Ok(ExitCode::from(2))
        }
    }
}

fn number(text: &str) -> io::Result<u64> {
    text.parse()
        .map_err(|error| io::Error::other(format!("{text}: {error}")))
}

fn print(text: &str) -> io::Result<ExitCode> {
    let mut out = io::stdout().lock();
    out.write_all(text.as_bytes())?;
    out.flush()?;
    Ok(ExitCode::SUCCESS)
}

/// Reads no more than is needed to know that the input is too long.
fn run(input: impl Read) -> io::Result<ExitCode> {
    let mut bytes = Vec::new();
    input
        .take(file::MOST_BYTES as u64 + 1)
        .read_to_end(&mut bytes)?;
    let printed = report::of_file(&bytes);
    print(&printed.text)?;
    Ok(success_if(printed.sound))
}

fn requests(mut input: impl Read) -> io::Result<ExitCode> {
    let mut bytes = Vec::new();
    input.read_to_end(&mut bytes)?;
    print(&lists::text::of_input(&bytes))
}

fn generate(seed: u64, count: u64, folder: &Path) -> io::Result<ExitCode> {
    fs::create_dir_all(folder)?;
    for number in 0..count {
        let path = folder.join(format!("{number:05}.study"));
        fs::write(path, cases::case(seed, number))?;
    }
    Ok(ExitCode::SUCCESS)
}

fn count(path: &str) -> io::Result<ExitCode> {
    let bytes = fs::read(path)?;
    let cases = corpus::read(&bytes)
        .ok_or_else(|| io::Error::other(format!("{path} is no corpus, or was cut short")))?;
    print(&count::count(&cases))
}

fn against(program: &str, count: &str, seed: &str, folder: &str) -> io::Result<ExitCode> {
    let (count, seed) = (number(count)?, number(seed)?);
    let differ = against::compare(Path::new(program), count, seed, Path::new(folder))?;
    print(&format!("{count} compared, {differ} differ\n"))?;
    Ok(success_if(differ == 0))
}

fn against_lists(program: &str, count: &str, seed: &str, folder: &str) -> io::Result<ExitCode> {
    let (count, seed) = (number(count)?, number(seed)?);
    let differ = lists::against::compare(Path::new(program), count, seed, Path::new(folder))?;
    print(&format!("{count} lists compared, {differ} differ\n"))?;
    Ok(success_if(differ == 0))
}

fn success_if(passed: bool) -> ExitCode {
    if passed {
        ExitCode::SUCCESS
    } else {
        ExitCode::FAILURE
    }
}
