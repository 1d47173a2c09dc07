//! `layout-rust`: the unchanged Rust stages as a program. See README.md.

use std::{
    env,
    io::{self, Read, Write},
    path::Path,
    process::ExitCode,
};

use layout_rust::{generate, leaves, listing::listing, replay, run::run, stats, text};

const USAGE: &str = "usage: layout-rust run | batch | generate COUNT SEED | names COUNT SEED \
                     | encode MODE | decode | stats | leaves COUNT SEED FOLDER \
                     | replay COUNT SEED FOLDER";

fn main() -> ExitCode {
    let args: Vec<String> = env::args().skip(1).collect();
    let words: Vec<&str> = args.iter().map(String::as_str).collect();
    match command(&words) {
        Ok(()) => ExitCode::SUCCESS,
        Err(error) => {
            eprintln!("layout-rust: {error}");
            ExitCode::FAILURE
        }
    }
}

fn command(words: &[&str]) -> io::Result<()> {
    match words {
        ["run"] => print(listing(&run(&input()?)).as_bytes()),
        ["batch"] => batch(),
        ["generate", count, seed] => {
            let mut out = io::stdout().lock();
            for case in generate::cases(number(count)?, number(seed)?) {
                stats::write_entry(&mut out, &case.input)?;
            }
            out.flush()
        }
        ["names", count, seed] => {
            for (i, case) in generate::cases(number(count)?, number(seed)?).enumerate() {
                print(format!("{i} {}\n", case.name).as_bytes())?;
            }
            Ok(())
        }
        ["encode", mode] => {
            let line = String::from_utf8(input()?).map_err(io::Error::other)?;
            let mode = mode.parse().map_err(io::Error::other)?;
            print(&text::encode(mode, &line).map_err(io::Error::other)?)
        }
        ["decode"] => {
            let line = text::decode(&input()?).map_err(io::Error::other)?;
            print(format!("{line}\n").as_bytes())
        }
        ["leaves", count, seed, folder] => {
            let count = number(count)?.try_into().map_err(io::Error::other)?;
            print(leaves::write(count, number(seed)?, Path::new(folder))?.as_bytes())
        }
        ["replay", count, seed, folder] => {
            let count = number(count)?.try_into().map_err(io::Error::other)?;
            print(replay::write(count, number(seed)?, Path::new(folder))?.as_bytes())
        }
        ["stats"] => {
            for (outcome, count) in stats::count(&mut io::stdin().lock())? {
                print(format!("{outcome}: {count}\n").as_bytes())?;
            }
            Ok(())
        }
        _ => Err(io::Error::other(USAGE)),
    }
}

/// Answers entry after entry; the stages' panics are caught in each run.
fn batch() -> io::Result<()> {
    let mut from = io::stdin().lock();
    let mut to = io::stdout().lock();
    while let Some(entry) = stats::read_entry(&mut from)? {
        stats::write_entry(&mut to, listing(&run(&entry)).as_bytes())?;
        to.flush()?;
    }
    Ok(())
}

fn input() -> io::Result<Vec<u8>> {
    let mut bytes = vec![];
    io::stdin().lock().read_to_end(&mut bytes)?;
    Ok(bytes)
}

fn print(bytes: &[u8]) -> io::Result<()> {
    let mut out = io::stdout().lock();
    out.write_all(bytes)?;
    out.flush()
}

fn number(word: &str) -> io::Result<u64> {
    word.parse().map_err(io::Error::other)
}
