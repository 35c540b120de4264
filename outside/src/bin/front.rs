//! The programs of the front: `front COMMAND NUMBERS` reads standard input to its
//! end, and writes what the command's program writes on standard output and
//! standard error.

use std::env;
use std::io::{self, Read, Write};
use std::process::ExitCode;

use outside::front::{self, Said};

const USAGE: &str = "usage: front list | sums | points | store MODE ROLE FROM | \
                     send MODE ROLE LENGTH | receive MODE ROLE | check SIZE FROM";

fn main() -> ExitCode {
    let arguments: Vec<String> = env::args().skip(1).collect();
    match said(&arguments) {
        Ok(Some(said)) => written(&said),
        Ok(None) => {
            eprintln!("{USAGE}");
            ExitCode::from(2)
        }
        Err(error) => failed(&error),
    }
}

fn said(arguments: &[String]) -> io::Result<Option<Said>> {
    let mut input = Vec::new();
    io::stdin().read_to_end(&mut input)?;
    let mut words = arguments.iter().map(String::as_str);
    let command = words.next().unwrap_or("");
    let words: Vec<&str> = words.collect();
    Ok(front::run(command, &words, &input))
}

fn written(said: &Said) -> ExitCode {
    if let Err(error) = io::stdout().write_all(&said.out) {
        return failed(&error);
    }
    eprint!("{}", said.err);
    ExitCode::SUCCESS
}

fn failed(error: &io::Error) -> ExitCode {
    eprintln!("front: {error}");
    ExitCode::FAILURE
}
