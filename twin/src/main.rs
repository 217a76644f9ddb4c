//! Dokrawin's core a second time, in ordinary Rust, written from document 01 and not from the proved
//! code. Where the two print different lines for one day, one of them is wrong.

mod day;
mod farm;
mod gateway;
mod generator;
mod image;
mod line;
mod out;
mod rule4;
mod sheet;
mod stream;
mod table;
#[cfg(test)]
mod tests;
mod wire;

use std::fs::File;
use std::io::{self, BufWriter, Read, Write};
use std::process::ExitCode;

/// A day is held in memory whole, so there are limits.
const MOST_RECORDS: usize = 20_000_000;
const MOST_BYTES: u64 = 1 << 30;

fn main() -> ExitCode {
    let arguments: Vec<String> = std::env::args().skip(1).collect();
    let arguments: Vec<&str> = arguments.iter().map(String::as_str).collect();
    match arguments[..] {
        ["gen", seed, records] => match (seed.parse(), records.parse()) {
            (Ok(seed), Ok(records)) if records <= MOST_RECORDS => write(&generator::day(seed, records)),
            _ => usage(),
        },
        [file] if file != "gen" => replay(file),
        _ => usage(),
    }
}

fn usage() -> ExitCode {
    eprintln!("twin FILE             play a recorded day");
    eprintln!("twin gen SEED N       write a random day of about N records to standard output, N at most {MOST_RECORDS}");
    ExitCode::from(2)
}

fn ended(printed: io::Result<()>) -> ExitCode {
    match printed {
        Ok(()) => ExitCode::SUCCESS,
        Err(error) => {
            eprintln!("twin: standard output: {error}");
            ExitCode::FAILURE
        }
    }
}

fn write(bytes: &[u8]) -> ExitCode {
    let mut output = io::stdout().lock();
    ended(output.write_all(bytes).and_then(|()| output.flush()))
}

fn read(file: &str) -> io::Result<Vec<u8>> {
    let mut day = Vec::new();
    File::open(file)?.take(MOST_BYTES + 1).read_to_end(&mut day)?;
    if day.len() as u64 > MOST_BYTES {
        return Err(io::Error::new(io::ErrorKind::InvalidData, format!("over {MOST_BYTES} bytes")));
    }
    Ok(day)
}

fn replay(file: &str) -> ExitCode {
    let day = match read(file) {
        Ok(day) => day,
        Err(error) => {
            eprintln!("twin: {file}: {error}");
            return ExitCode::FAILURE;
        }
    };
    let mut printed = Ok(());
    let mut output = BufWriter::with_capacity(1 << 16, io::stdout().lock());
    day::replay(&day, |line| {
        if printed.is_ok() {
            printed = output.write_all(line);
        }
    });
    ended(printed.and_then(|()| output.flush()))
}
