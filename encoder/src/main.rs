//! `layout-line`: a line of text as an image, or taken to its answer. See
//! README.md.

use std::{
    env,
    io::{self, IsTerminal, Read, Write},
    process::{Command, ExitCode, Stdio},
    thread,
};

use layout_line::{
    Fault, Line, explain,
    hints::{hints, hints_of_characters, hints_of_text},
    image::{Tree, image_of},
    listing::{Outcome, outcome, static_widths},
    read_line,
};

const USAGE: &str = "\
usage: layout-line encode [MODE]              a line on standard input to a mode byte and its image
       layout-line run PROGRAM [--mode MODE]  a line on standard input to PROGRAM's listing, a refusal in words
MODE: 0 no return type (if none is given), 1 return type, 2 return type and static width";

const ACCEPTED: u8 = 0;
const REFUSED: u8 = 1;
const FAILED: u8 = 2;

fn main() -> ExitCode {
    let args: Vec<String> =
        env::args_os().skip(1).map(|arg| arg.to_string_lossy().into_owned()).collect();
    let words: Vec<&str> = args.iter().map(String::as_str).collect();
    let done = match words[..] {
        ["encode"] => encode("0"),
        ["encode", mode] => encode(mode),
        ["run", program] => run(program, "0"),
        ["run", program, "--mode", mode] | ["run", "--mode", mode, program] => run(program, mode),
        _ => Err(USAGE.to_owned()),
    };
    ExitCode::from(done.unwrap_or_else(|words| {
        eprintln!("{}", words.trim_end());
        FAILED
    }))
}

fn encode(mode: &str) -> Result<u8, String> {
    let mode = mode_of(mode)?;
    let text = line_of_input()?;
    let line = read_line(&text).map_err(|fault| explain::fault(&text, &fault))?;
    print(&[&[mode], &image_of(&line.tree)[..]].concat())?;
    Ok(ACCEPTED)
}

/// Passes the program's listing through, and says on standard error what it
/// means for the text.
fn run(program: &str, mode: &str) -> Result<u8, String> {
    let mode = mode_of(mode)?;
    let text = line_of_input()?;
    let line = read_line(&text).map_err(|fault| explain::fault(&text, &fault))?;
    let input = [&[mode], &image_of(&line.tree)[..]].concat();
    let output = output_of(program, input).map_err(|e| format!("layout-line: {program}: {e}"))?;
    print(&output)?;
    let listing = String::from_utf8_lossy(&output);
    match outcome(&listing) {
        Outcome::Accepted => {
            say_hints(&hints(&text, &line, mode, &listing));
            Ok(ACCEPTED)
        }
        Outcome::Refused { number, first, second } => {
            eprint!("{}", explain::refusal(&text, &line, number, first, second));
            if number == 41 {
                say_widths(program, &line, first, second);
            }
            // stage 4 is about widths
            let hints = if number >= 41 { hints_of_text } else { hints_of_characters };
            say_hints(&hints(&text, &line));
            Ok(REFUSED)
        }
        Outcome::Unknown => Err(format!("layout-line: {program}: printed no listing")),
    }
}

/// How wide two concatenations are, of which the program is asked one by one.
fn say_widths(program: &str, line: &Line, first: usize, second: usize) {
    let width = |i: usize| {
        let concatenations = vec![line.tree.concatenations.get(i)?.clone()];
        let image = image_of(&Tree { concatenations });
        let output = output_of(program, [&[0], &image[..]].concat()).ok()?;
        let listing = String::from_utf8_lossy(&output);
        static_widths(&listing).first().copied().flatten().map(str::to_owned)
    };
    if let (Some(first), Some(second)) = (width(first), width(second)) {
        eprintln!("their widths in bits are {first} and {second}");
    }
}

fn say_hints(hints: &[String]) {
    for hint in hints {
        eprintln!("hint: {hint}");
    }
}

fn mode_of(word: &str) -> Result<u8, String> {
    word.parse().map_err(|_| format!("layout-line: `{word}` is no mode\n{USAGE}"))
}

/// All of standard input, which must be UTF-8.
fn line_of_input() -> Result<String, String> {
    if io::stdin().is_terminal() {
        eprintln!("layout-line: type a line, then end it with Enter and Ctrl-D");
    }
    let mut bytes = vec![];
    io::stdin()
        .lock()
        .read_to_end(&mut bytes)
        .map_err(|e| format!("layout-line: standard input: {e}"))?;
    String::from_utf8(bytes).map_err(|error| {
        // up to the first wrong byte the lossy text is the same
        let at = error.utf8_error().valid_up_to();
        let text = String::from_utf8_lossy(error.as_bytes());
        let place = at..at + char::REPLACEMENT_CHARACTER.len_utf8();
        let words = format!("byte {} of the text is no UTF-8", at + 1);
        explain::fault(&text, &Fault::at(place, words))
    })
}

/// What the program prints when it is given the input.
fn output_of(program: &str, input: Vec<u8>) -> io::Result<Vec<u8>> {
    let mut child = Command::new(program).stdin(Stdio::piped()).stdout(Stdio::piped()).spawn()?;
    let mut stdin = child.stdin.take().expect("a pipe was asked for");
    // it may stop reading early, as `layout` does after 51,306 bytes: no error
    let writer = thread::spawn(move || drop(stdin.write_all(&input)));
    let output = child.wait_with_output()?;
    writer.join().map_err(|_| io::Error::other("the writer stopped"))?;
    Ok(output.stdout)
}

fn print(bytes: &[u8]) -> Result<(), String> {
    let mut out = io::stdout().lock();
    let printed = out.write_all(bytes).and_then(|()| out.flush());
    printed.map_err(|e| format!("layout-line: standard output: {e}"))
}
