//! Compares the plain planner with known answers.
//!
//!     compare FOLDER [RECORDS]
//!
//! FOLDER has sheets NAME.in with their text NAME.out. Each line of RECORDS has a record in hexadecimal (- for none), a tick and the
//! answer that must come.

use std::error::Error;
use std::path::Path;
use std::process::ExitCode;
use std::{env, fs};

/// How many were tried, and the names of those that came out otherwise.
struct Tally {
    tried: usize,
    wrong: Vec<String>,
}

fn sheets(folder: &Path) -> Result<Tally, Box<dyn Error>> {
    let mut tally = Tally { tried: 0, wrong: Vec::new() };
    let mut paths = fs::read_dir(folder)?.map(|entry| Ok(entry?.path())).collect::<Result<Vec<_>, std::io::Error>>()?;
    paths.retain(|path| path.extension().is_some_and(|extension| extension == "in"));
    paths.sort();
    let mut text = Vec::new();
    for path in paths {
        text.clear();
        plain::plan_sheet(&fs::read(&path)?, &mut text);
        tally.tried += 1;
        if text != fs::read(path.with_extension("out"))? {
            tally.wrong.push(path.display().to_string());
        }
    }
    Ok(tally)
}

fn bytes(hexadecimal: &str) -> Result<Vec<u8>, Box<dyn Error>> {
    if hexadecimal == "-" {
        return Ok(Vec::new());
    }
    let pairs = hexadecimal.as_bytes().chunks(2);
    pairs.map(|pair| Ok(u8::from_str_radix(std::str::from_utf8(pair)?, 16)?)).collect()
}

fn records(file: &Path) -> Result<Tally, Box<dyn Error>> {
    let mut tally = Tally { tried: 0, wrong: Vec::new() };
    for line in fs::read_to_string(file)?.lines().filter(|line| !line.is_empty() && !line.starts_with('#')) {
        let [record, tick, answer] = line.split_whitespace().collect::<Vec<_>>()[..] else {
            return Err(format!("not a record, a tick and an answer: {line}").into());
        };
        tally.tried += 1;
        if plain::step_at(&bytes(record)?, tick.parse()?) != answer.parse::<u32>()? {
            tally.wrong.push(line.to_string());
        }
    }
    Ok(tally)
}

fn main() -> Result<ExitCode, Box<dyn Error>> {
    let arguments: Vec<_> = env::args_os().skip(1).collect();
    if arguments.is_empty() || arguments.len() > 2 {
        return Err("usage: compare FOLDER [RECORDS]".into());
    }
    let mut tallies = vec![("sheets", sheets(Path::new(&arguments[0]))?)];
    if let Some(file) = arguments.get(1) {
        tallies.push(("records", records(Path::new(file))?));
    }
    let mut good = true;
    for (what, tally) in tallies {
        good &= tally.tried > 0 && tally.wrong.is_empty();
        println!("{} {what} tried, {} answered otherwise", tally.tried, tally.wrong.len());
        for name in tally.wrong {
            println!("  {name}");
        }
    }
    Ok(if good { ExitCode::SUCCESS } else { ExitCode::FAILURE })
}
