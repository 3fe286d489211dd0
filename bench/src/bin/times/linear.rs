//! The least energy as a linear program, solved in fractions by glpsol.

use std::collections::BTreeSet;
use std::error::Error;
use std::fmt::Write;
use std::process::Command;
use std::time::Instant;
use std::{env, fs};

use plain::{FINE, Sheet, segments};

/// The unknowns are the ticks of each step between neighbouring cuts; at each cut the work done is held by the two walls.
fn program(sheet: &Sheet, steps: usize) -> Result<String, Box<dyn Error>> {
    let jobs = sheet.queue.jobs();
    let cuts = BTreeSet::from_iter([0].into_iter().chain(jobs.iter().flat_map(|job| [job.arrival, job.deadline])));
    let cuts = Vec::from_iter(cuts);
    let work =
        |counted: &dyn Fn(&plain::Job) -> bool| FINE * jobs.iter().filter(|job| counted(job)).map(|job| job.work).sum::<u64>();
    let mut text = String::from("Minimize\n energy:");
    let unknowns = |text: &mut String, interval: usize, factor: &dyn Fn(usize) -> u64| {
        for step in 0..steps {
            write!(text, " + {} x{interval}_{step}", factor(step)).unwrap();
        }
        text.push('\n');
    };
    for interval in 1..cuts.len() {
        unknowns(&mut text, interval, &|step| sheet.ladder.power(step));
    }
    writeln!(text, "Subject To")?;
    for interval in 1..cuts.len() {
        write!(text, " ticks{interval}:")?;
        unknowns(&mut text, interval, &|_| 1);
        writeln!(text, " = {}", FINE * (cuts[interval] - cuts[interval - 1]))?;
        // done_n is what is done by the end of interval n
        write!(text, " work{interval}: done{interval}")?;
        if interval > 1 {
            write!(text, " - done{}", interval - 1)?;
        }
        for step in 1..steps {
            write!(text, " - {} x{interval}_{step}", sheet.ladder.speed(step))?;
        }
        writeln!(text, " <= 0")?;
    }
    writeln!(text, "Bounds")?;
    for (interval, &cut) in cuts.iter().enumerate().skip(1) {
        let (floor, ceiling) = (work(&|job| job.deadline <= cut), work(&|job| job.arrival < cut));
        writeln!(text, " {floor} <= done{interval} <= {ceiling}")?;
    }
    writeln!(text, "End")?;
    Ok(text)
}

/// The time that one solution takes, in microseconds. Its energy must be that of the plan.
pub fn solve(sheet: &Sheet) -> Result<f64, Box<dyn Error>> {
    let steps = (1..16).find(|&step| sheet.ladder.speed(step) == sheet.ladder.top_speed()).unwrap() + 1;
    let folder = env::temp_dir().join(format!("times-{}", std::process::id()));
    fs::create_dir_all(&folder)?;
    let (given, answer) = (folder.join("program.lp"), folder.join("answer"));
    fs::write(&given, program(sheet, steps)?)?;
    let start = Instant::now();
    let said = Command::new("glpsol").arg("--exact").arg("--lp").arg(&given).arg("--write").arg(&answer).output()?;
    let taken = start.elapsed();
    let answer = fs::read_to_string(answer).map_err(|_| String::from_utf8_lossy(&said.stdout).into_owned())?;
    fs::remove_dir_all(folder)?;
    // the line "s bas ROWS COLUMNS f f ENERGY" has the solution's value
    let line = answer.lines().find(|line| line.starts_with("s bas")).ok_or("glpsol found no solution")?;
    let least: f64 = line.split_whitespace().last().unwrap_or_default().parse()?;
    let planned: u64 = segments(sheet.queue.jobs(), &sheet.ladder).iter().map(|s| sheet.ladder.power(s.step) * s.ticks).sum();
    if (least - planned as f64).abs() > 0.5 {
        return Err(format!("the linear program has energy {least}, the plan {planned}").into());
    }
    Ok(taken.as_secs_f64() * 1e6)
}
