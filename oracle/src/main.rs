//! `oracle` answers a session from standard input, `oracle plan` a plan or an
//! image, `oracle rewrite` images one by one. The other commands print sessions,
//! images or plans, or say what a session reaches.

mod bench;
mod calls;
mod coverage;
mod generate;
mod hits;
mod image;
mod model;
mod plan;
mod queues;
mod reach;
mod rewrite;
mod session;
mod sources;
mod tables;
#[cfg(test)]
mod tests;
mod tsb;
mod write;

use std::io::{self, BufReader, BufWriter, Write};
use std::process::ExitCode;

const BUFFER: usize = 1 << 16;
const USAGE: &str = "usage: oracle
       oracle generate --seed S --lines N
       oracle coverage --seed S --lines N
       oracle bench-session mix|raise|mondo|seams|hit --lines N
       oracle plan
       oracle rewrite
       oracle generate-images --seed S --count N
       oracle generate-plans --seed S --count N
       oracle bench-images --count N";

fn main() -> ExitCode {
    let arguments: Vec<String> = std::env::args().skip(1).collect();
    let arguments: Vec<&str> = arguments.iter().map(String::as_str).collect();
    match run(&arguments) {
        Ok(()) => ExitCode::SUCCESS,
        // Whoever read the output has seen enough.
        Err(error) if error.kind() == io::ErrorKind::BrokenPipe => ExitCode::FAILURE,
        Err(error) => {
            eprintln!("oracle: {error}");
            ExitCode::FAILURE
        }
    }
}

fn run(arguments: &[&str]) -> io::Result<()> {
    let mut output = BufWriter::with_capacity(BUFFER, io::stdout().lock());
    let input = BufReader::with_capacity(BUFFER, io::stdin().lock());
    match *arguments {
        [] => session::run(input, &mut output),
        ["plan"] => plan::run(input, &mut output),
        ["rewrite"] => rewrite::run(input, &mut output),
        ["generate", "--seed", seed, "--lines", lines] => {
            generate::write_session(number(seed)?, number(lines)?, &mut output)
        }
        ["coverage", "--seed", seed, "--lines", lines] => {
            coverage::report(number(seed)?, number(lines)?, &mut output)
        }
        ["bench-session", kind, "--lines", lines] => {
            let kind = bench::kind(kind).ok_or_else(misused)?;
            bench::write_session(&kind, number(lines)?, &mut output)
        }
        ["generate-images", "--seed", seed, "--count", count] => {
            generate::write_images(number(seed)?, number(count)?, &mut output)
        }
        ["generate-plans", "--seed", seed, "--count", count] => {
            generate::write_plans(number(seed)?, number(count)?, &mut output)
        }
        ["bench-images", "--count", count] => bench::write_images(number(count)?, &mut output),
        _ => Err(misused()),
    }?;
    output.flush()
}

fn number(text: &str) -> io::Result<u64> {
    text.parse().map_err(|_| misused())
}

fn misused() -> io::Error {
    io::Error::other(USAGE)
}
