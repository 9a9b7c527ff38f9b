//! The oracle: what the crate `plist` answers, in the words of document 01.
//!
//! Every command reads one input a line, in hex, and answers them in order, so that one run serves
//! hundreds of thousands of inputs. The formats stand in compare/README.md.

#[path = "../drive/added.rs"]
mod added;
mod hex;
mod listing;
mod read;
mod tape;
mod text;
mod write;

use std::{
    env,
    io::{self, BufRead, BufWriter, Write},
    process::ExitCode,
};

const USAGE: &str =
    "usage: oracle read [--cap EVENTS] | write | utf8 | utf16   (inputs: hex lines)";

fn main() -> ExitCode {
    // A panic of the crate is an answer, and is printed as one.
    std::panic::set_hook(Box::new(|_| ()));
    let arguments: Vec<String> = env::args().skip(1).collect();
    let words: Vec<&str> = arguments.iter().map(String::as_str).collect();
    let done = match words[..] {
        ["read"] => each_line(|file| read::block(file, read::DEFAULT_CAP)),
        ["read", "--cap", cap] => match cap.parse() {
            Ok(cap) => each_line(|file| read::block(file, cap)),
            Err(_) => Err(USAGE.to_string()),
        },
        ["write"] => each_line(write::line),
        ["utf8"] => each_line(text::utf8_line),
        ["utf16"] => each_line(text::utf16_line),
        _ => Err(USAGE.to_string()),
    };
    match done {
        Ok(()) => ExitCode::SUCCESS,
        Err(message) => {
            eprintln!("{message}");
            ExitCode::from(2)
        }
    }
}

/// Answers each line of standard input on standard output. An empty line is an empty input.
fn each_line(answer: impl Fn(&[u8]) -> String) -> Result<(), String> {
    let mut output = BufWriter::new(io::stdout().lock());
    for (index, line) in io::stdin().lock().lines().enumerate() {
        let line = line.map_err(|error| error.to_string())?;
        let input = hex::decode(&line).ok_or_else(|| format!("line {}: not hex", index + 1))?;
        output
            .write_all(answer(&input).as_bytes())
            .map_err(|error| error.to_string())?;
    }
    output.flush().map_err(|error| error.to_string())
}
