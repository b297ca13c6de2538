//! The comparison's commands; compare/record, compare/constants and compare/run call it.

use std::io::Write;
use std::process::ExitCode;

use compare::{answers, audio, constants, record, replay, selftest, surround};

const HELP: &str = "\
compare record MODULE [-o PATH]      writes a module's recorded answers
compare replay calls [SEED COUNT]    writes a random list of at least COUNT calls as replay reads
                                     it; without SEED and COUNT the one that is kept
compare replay answers [SEED COUNT]  writes the Rust's answers to it
compare answer                       writes the Rust's answers to the calls of standard input
compare audio [COUNT [LAYOUT]]       writes COUNT frames as duckline reads them: speech, noisy speech
                                     (the bed of LAYOUT: mono, stereo, 5.1 or 7.1); without COUNT
                                     the run that is kept
compare constants                    prints the constants' table
compare selftest                     tests root, narrowing, round, images and examples of the stand-ins
compare paths                        prints each module and where its recorded file lies";

fn put(bytes: &[u8]) -> Result<(), String> {
    std::io::stdout()
        .write_all(bytes)
        .map_err(|e| format!("standard output: {e}"))
}

fn record(arguments: &[&str]) -> Result<(), String> {
    let (name, path) = match arguments {
        [name] => (name, None),
        [name, "-o", path] | ["-o", path, name] => (name, Some(path)),
        _ => return Err(format!("usage:\n{HELP}")),
    };
    let names: Vec<_> = record::MODULES.iter().map(|m| m.0).collect();
    let bytes = record::module(name)
        .ok_or_else(|| format!("no module {name}; there are {}", names.join(", ")))?;
    match path {
        Some(path) => std::fs::write(path, bytes).map_err(|e| format!("{path}: {e}")),
        None => put(&bytes),
    }
}

fn number(text: &str) -> Result<u64, String> {
    text.parse()
        .map_err(|_| format!("{text} is no whole number"))
}

/// The channels of a layout by its name.
fn channels_of(name: &str) -> Result<u64, String> {
    let places = surround::named(name).ok_or_else(|| format!("{name} is no layout"))?;
    Ok(places.len() as u64)
}

fn replayed(part: &str, list: &[&str]) -> Result<(), String> {
    let done = match list {
        [] => replay::kept(),
        [seed, count] => replay::random(number(seed)?, number(count)?),
        _ => return Err(format!("usage:\n{HELP}")),
    };
    match part {
        "calls" => put(&done.calls),
        "answers" => put(&done.answers),
        _ => Err(format!("usage:\n{HELP}")),
    }
}

fn test() -> Result<(), String> {
    let (compared, differ) = selftest::run();
    println!("{compared} compared, {differ} differ");
    if differ == 0 {
        Ok(())
    } else {
        Err("the self-test differs".to_string())
    }
}

fn main() -> ExitCode {
    let given: Vec<String> = std::env::args().skip(1).collect();
    let given: Vec<&str> = given.iter().map(String::as_str).collect();
    let done = match given.as_slice() {
        [.., "-h" | "--help"] | [] => put(format!("{HELP}\n").as_bytes()),
        ["record", rest @ ..] => record(rest),
        ["replay", part, list @ ..] => replayed(part, list),
        ["answer"] => answers::answer(
            std::io::BufReader::new(std::io::stdin().lock()),
            std::io::stdout().lock(),
        )
        .map_err(|e| e.to_string()),
        ["audio"] => put(&audio::kept()),
        ["audio", count] => number(count).and_then(|n| put(&audio::stream(n, 1))),
        ["audio", count, layout] => {
            channels_of(layout).and_then(|channels| put(&audio::stream(number(count)?, channels)))
        }
        ["constants"] => put(constants::text().as_bytes()),
        ["selftest"] => test(),
        ["paths"] => {
            record::MODULES
                .iter()
                .for_each(|(name, _)| println!("{name} {}", record::path(name)));
            Ok(())
        }
        _ => Err(format!("usage:\n{HELP}")),
    };
    match done {
        Ok(()) => ExitCode::SUCCESS,
        Err(message) => {
            eprintln!("compare: {message}");
            ExitCode::FAILURE
        }
    }
}
