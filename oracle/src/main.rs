//! The command line: the case file and the output to it, what they cover, the
//! scripts around the desk's limits, the tokens of a file, and a file's answer
//! as the desk program prints it.

use oracle::borders;
use oracle::desk::{desk_output, line_of};
use oracle::families;
use oracle::report;
use oracle::settings::{SOURCE_LIMIT, TOKEN_WIDTH};
use oracle::tokens::{tokenize, Tokenized};
use std::io::Write;
use std::process::ExitCode;

const USAGE: &str = "usage: oracle cases stdin|stdout|coverage
       oracle borders list|stdout
       oracle borders script NAME
       oracle tokens FILE
       oracle read FILE";

fn main() -> ExitCode {
    let arguments: Vec<String> = std::env::args().skip(1).collect();
    let words: Vec<&str> = arguments.iter().map(String::as_str).collect();
    let output = match words[..] {
        ["cases", "stdin"] => Ok(families::input_file()),
        ["cases", "stdout"] => Ok(families::output_file().into_bytes()),
        ["cases", "coverage"] => coverage_text(),
        ["borders", "list"] => Ok(borders::list_text().into_bytes()),
        ["borders", "stdout"] => Ok(borders::output_text().into_bytes()),
        ["borders", "script", name] => {
            borders::script(name).ok_or_else(|| format!("{name}: there is no such script"))
        }
        ["tokens", file] => with_file(file, tokens_text),
        ["read", file] => with_file(file, desk_output),
        _ => Err(USAGE.to_string()),
    };
    let written = output.and_then(|bytes| {
        let result = std::io::stdout().write_all(&bytes);
        result.map_err(|error| error.to_string())
    });
    match written {
        Ok(()) => ExitCode::SUCCESS,
        Err(message) => {
            eprintln!("{message}");
            ExitCode::from(2)
        }
    }
}

/// The coverage of the cases, for which the reader must count.
fn coverage_text() -> Result<Vec<u8>, String> {
    if oracle::coverage::COUNTS {
        Ok(report::coverage_text().into_bytes())
    } else {
        Err("build with --features coverage to count what the cases cover".to_string())
    }
}

/// What a function says about the bytes of a file.
fn with_file(file: &str, text_of: fn(&[u8]) -> String) -> Result<Vec<u8>, String> {
    match std::fs::read(file) {
        Ok(source) => Ok(text_of(&source).into_bytes()),
        Err(error) => Err(format!("{file}: {error}")),
    }
}

/// The token count and the token rows of a source, or its refusal.
fn tokens_text(source: &[u8]) -> String {
    // No source within the limit has more tokens than bytes.
    let mut table = vec![0; source.len().min(SOURCE_LIMIT) * TOKEN_WIDTH];
    match tokenize(source, &mut table) {
        Tokenized::Refused(number, place) => format!("refused {number} {place}\n"),
        Tokenized::Tokens(count) => {
            let mut text = format!("tokens {count}\n");
            for row in table.chunks(TOKEN_WIDTH).take(count as usize) {
                text.push_str(&line_of(row));
            }
            text
        }
    }
}
