//! Without words: compares the library with the reference on many inputs, and ends with 1 where they differ or do not meet a number of
//! refusal that they should.
//! `some SEED`: the same on about a tenth of these inputs, drawn by the seed.
//! `vectors DIR`: runs the reference alone on the vectors of the two programs.
//! `list PROGRAM`: prints what the reference lists for standard input, as the lister or the fitter.
//! `cases FILE`: prints the lines of the program `cases`, which are the reference's answers to a file of questions.
//! `fitter FILE N COMMAND ..`: runs the fitter by that command on a file of cases and on N random inputs, beside the reference.

use std::io::Read;
use std::path::Path;
use std::process::ExitCode;

fn compare(part: Option<u64>) -> bool {
    let Some(library) = independent::boundary::library() else {
        eprintln!("no library: run tests/run, or name libkaihveto.a's folder in KAIHVETO_LIB, or a program in KAIHVETO_FAR");
        return false;
    };
    println!("the library is {library}");
    independent::groups::run(part)
}

fn some(seed: &str) -> bool {
    match seed.parse() {
        Ok(seed) => compare(Some(seed)),
        Err(_) => {
            eprintln!("{seed} is no number");
            false
        }
    }
}

fn vectors(folder: &str) -> bool {
    independent::vectors::run(Path::new(folder)).unwrap_or_else(|error| {
        eprintln!("{folder}: {error}");
        false
    })
}

fn list(listing: fn(&[u8]) -> String) -> bool {
    let mut bytes = Vec::new();
    match std::io::stdin().read_to_end(&mut bytes) {
        Ok(_) => {
            print!("{}", listing(&bytes));
            true
        }
        Err(error) => {
            eprintln!("standard input: {error}");
            false
        }
    }
}

fn cases(file: &str) -> bool {
    let text = std::fs::read_to_string(file).map_err(|error| error.to_string());
    match text.and_then(|text| independent::lines::answers(&text)) {
        Ok(answers) => {
            print!("{answers}");
            true
        }
        Err(words) => {
            eprintln!("{file}: {words}");
            false
        }
    }
}

fn fitter(file: &str, random: &str, command: &[&str]) -> bool {
    let text = std::fs::read_to_string(file).map_err(|error| error.to_string());
    let random = random.parse().map_err(|_| format!("{random} is no number"));
    match text.and_then(|text| independent::fitter::run(&text, random?, command)) {
        Ok(alike) => alike,
        Err(words) => {
            eprintln!("{file}: {words}");
            false
        }
    }
}

fn main() -> ExitCode {
    let words: Vec<String> = std::env::args().skip(1).collect();
    let words: Vec<&str> = words.iter().map(String::as_str).collect();
    let good = match words[..] {
        [] => compare(None),
        ["some", seed] => some(seed),
        ["vectors", folder] => vectors(folder),
        ["list", "lister"] => list(independent::reference::lister),
        ["list", "fitter"] => list(independent::reference::fitter),
        ["cases", file] => cases(file),
        ["fitter", file, random, ref command @ ..] if !command.is_empty() => fitter(file, random, command),
        _ => {
            eprintln!("usage: independent [some SEED | vectors DIR | list lister | list fitter | cases FILE | fitter FILE N COMMAND ..]");
            return ExitCode::from(2);
        }
    };
    if good {
        ExitCode::SUCCESS
    } else {
        ExitCode::FAILURE
    }
}
