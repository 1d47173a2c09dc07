//! `layout-compare`: our run beside the Rust. See ../README.md.

mod compare;
mod driver;
mod tally;
mod tokens;
mod under;

use std::{env, io, path::Path, process::ExitCode};

use layout_rust::generate::{Class, class_cases};

const USAGE: &str = "usage: layout-compare run COUNT SEED CLASS [PROGRAM] \
                     | cases COUNT SEED CLASS FILE | show SEED CLASS INDEX\nclasses:";

fn main() -> ExitCode {
    let args: Vec<String> = env::args().skip(1).collect();
    let words: Vec<&str> = args.iter().map(String::as_str).collect();
    match command(&words) {
        Ok(true) => ExitCode::SUCCESS,
        Ok(false) => ExitCode::FAILURE,
        Err(error) => {
            eprintln!("layout-compare: {error}");
            ExitCode::from(2)
        }
    }
}

/// Whether all that was compared is equal.
fn command(words: &[&str]) -> io::Result<bool> {
    match words {
        ["run", count, seed, "tokens"] => tokens::run(number(count)?, number(seed)?, None),
        ["run", count, seed, "tokens", program] => {
            tokens::run(number(count)?, number(seed)?, Some(Path::new(program)))
        }
        ["cases", count, seed, "tokens", file] => {
            tokens::write(number(count)?, number(seed)?, Path::new(file))
        }
        ["show", seed, "tokens", index] => tokens::show(number(seed)?, number(index)?),
        ["run", count, seed, class] => {
            compare::run(number(count)?, number(seed)?, named(class)?, None)
        }
        ["run", count, seed, class, program] => {
            compare::run(number(count)?, number(seed)?, named(class)?, Some(Path::new(program)))
        }
        ["cases", count, seed, class, file] => {
            driver::write(number(count)?, number(seed)?, named(class)?, Path::new(file))
        }
        ["show", seed, class, index] => {
            let index = number(index)?.try_into().map_err(io::Error::other)?;
            let pair = class_cases(named(class)?, number(seed)?).nth(index).expect("no end");
            let cut = pair.cut.map_or(vec![], |cut| cut.input);
            io::Write::write_all(&mut io::stdout(), &[pair.case.input, cut].concat())?;
            if let Some(default) = pair.default {
                eprintln!("under {} bytes: {:02x?}", default.len(), default);
            }
            Ok(true)
        }
        _ => {
            let names: Vec<&str> = Class::NAMES.iter().map(|(name, _)| *name).collect();
            Err(io::Error::other(format!("{USAGE} {} tokens", names.join(" "))))
        }
    }
}

fn named(class: &str) -> io::Result<Class> {
    Class::named(class).ok_or_else(|| io::Error::other(format!("no class {class}")))
}

fn number(word: &str) -> io::Result<u64> {
    word.parse().map_err(io::Error::other)
}
