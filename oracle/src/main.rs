//! The oracle: what FlowForge's published code answers, in document 01's text (README.md, FORM.md).

mod loads;

use std::io::{self, Read, Write};
use std::process::ExitCode;

use text::{
    description::Description,
    held::Held,
    lines::{End, Record},
    script::{self, Asked},
};

/// The one packet size of the published files.
const PUBLISHED_BITS: u64 = 11_200;

/// What is shown of each held state.
#[derive(Clone, Copy)]
enum States {
    None,
    Lines,
    Digests,
}

fn main() -> ExitCode {
    let arguments: Vec<String> = std::env::args().skip(1).collect();
    let words: Vec<&str> = arguments.iter().map(String::as_str).collect();
    let (mode, always_patched) = match words[..] {
        [mode] => (mode, false),
        [mode, "--patched"] => (mode, true),
        _ => return usage(),
    };
    ended(match mode {
        "run" => describe(States::None, always_patched),
        "held" => describe(States::Lines, always_patched),
        "digest" => describe(States::Digests, always_patched),
        "script" => answer(always_patched),
        "loads" => loads(),
        "meters" => meters(),
        _ => return usage(),
    })
}

fn ended(done: io::Result<()>) -> ExitCode {
    match done {
        Ok(()) => ExitCode::SUCCESS,
        Err(error) => {
            eprintln!("oracle: {error}");
            ExitCode::from(2)
        }
    }
}

fn usage() -> ExitCode {
    eprintln!("usage: oracle run|held|digest [--patched] < description");
    eprintln!("       oracle script [--patched] < script");
    eprintln!("       oracle loads < list");
    eprintln!("       oracle meters < script");
    ExitCode::from(2)
}

/// The text on standard input. One byte more than the reader takes, so that a longer text is seen to be longer.
fn input() -> io::Result<Vec<u8>> {
    let mut text = Vec::new();
    io::stdin().take(4097).read_to_end(&mut text)?;
    Ok(text)
}

/// The description on standard input, or the stop of a malformed text.
fn description() -> io::Result<Result<Description, u8>> {
    Ok(Description::read(&input()?).ok_or(15))
}

fn describe(states: States, always_patched: bool) -> io::Result<()> {
    let mut out = io::BufWriter::new(io::stdout().lock());
    match description()? {
        Ok(description) => lines(&mut out, &description, states, always_patched),
        Err(number) => writeln!(out, "stop={number}"),
    }
}

/// The lines of a run.
fn lines(
    out: &mut impl Write,
    description: &Description,
    states: States,
    always_patched: bool,
) -> io::Result<()> {
    let mut shown = Ok(());
    let ended = play(description, always_patched, &mut |record, held| {
        if shown.is_ok() {
            shown = show(out, states, record, held);
        }
    });
    shown?;
    match ended {
        Ok(end) => write!(out, "{end}"),
        Err(number) => writeln!(out, "stop={number}"),
    }
}

/// The networks of a script, answered as the port's program `held` does.
fn answer(always_patched: bool) -> io::Result<()> {
    let mut out = io::BufWriter::new(io::stdout().lock());
    for line in io::stdin().lines() {
        let line = line?;
        if line.starts_with('#') {
            continue;
        }
        let Some((asked, description)) = script::read(&line) else {
            return Err(io::Error::other(format!("can't read the line `{line}`")));
        };
        match asked {
            Asked::Lines => {
                lines(&mut out, &description, States::Lines, always_patched)?;
                writeln!(out)?;
            }
            Asked::Digest => {
                let mut text = vec![];
                lines(&mut text, &description, States::Digests, always_patched)?;
                writeln!(out, "lines {:016x}", fnv_1a(&text))?;
            }
        }
    }
    Ok(())
}

/// The published files as they are where they can be, the patched copy for any other packet sizes.
fn play(
    description: &Description,
    always_patched: bool,
    watch: &mut dyn FnMut(Option<&Record>, &Held),
) -> Result<End, u8> {
    if let Some(number) = description.refused() {
        return Err(number);
    }
    if has_published_size(description) && !always_patched {
        published::session::play(description, watch)
    } else {
        patched::session::play(description, watch)
    }
}

/// All packets have the one size of the published files.
fn has_published_size(description: &Description) -> bool {
    let mut sizes = description.sender_bits();
    sizes.all(|bits| bits == PUBLISHED_BITS)
}

fn show(
    out: &mut impl Write,
    states: States,
    record: Option<&Record>,
    held: &Held,
) -> io::Result<()> {
    if let Some(record) = record {
        writeln!(out, "{record}")?;
    }
    match states {
        States::None => Ok(()),
        States::Lines => writeln!(out, "{}", held.line()),
        States::Digests => writeln!(out, "digest {:016x}", fnv_1a(held.line().as_bytes())),
    }
}

/// FNV-1a, 64 bits.
fn fnv_1a(bytes: &[u8]) -> u64 {
    bytes.iter().fold(0xcbf2_9ce4_8422_2325, |hash, byte| {
        (hash ^ u64::from(*byte)).wrapping_mul(0x0000_0100_0000_01b3)
    })
}

/// The oracle's own reader of descriptions: nothing is built or run.
fn loads() -> io::Result<()> {
    let mut list = Vec::new();
    io::stdin().take(loads::LIST).read_to_end(&mut list)?;
    let tally = loads::rounds(&list);
    let (given, malformed, sum) = (tally.given, tally.malformed, tally.sum);
    println!("given={given} malformed={malformed} sum={sum:016x}");
    Ok(())
}

/// The patched copy answers, since there an amount counts bits.
fn meters() -> io::Result<()> {
    let mut script = String::new();
    io::stdin().read_to_string(&mut script)?;
    let answers = patched::meter_script::answer(&script)
        .map_err(|line| io::Error::other(format!("can't read the line `{}`", line.0)))?;
    io::stdout().write_all(answers.as_bytes())
}
