//! Times the product beside the plain planner, on sheets of four shapes and three sizes.
//!
//!     times [--runs N] [--exact]
//!
//! `--exact` also has glpsol solve the sheets of 16 jobs as linear programs in fractions, for scale.

mod linear;
mod shapes;

use std::env;
use std::error::Error;
use std::hint::black_box;
use std::time::{Duration, Instant};

use plain::OUTPUT_ROOM;

use shapes::Shape;

const SIZES: [usize; 3] = [16, 64, 256];
const RUNS: usize = 2_000;
const WARM_UP: usize = 200;

mod product {
    unsafe extern "C" {
        pub fn nofjerm_plan_sheet(sheet: *const u8, length: usize, out: *mut u8, room: usize) -> usize;
    }
}

/// The length of the text that the product writes from the start of `out`.
fn product_plan(sheet: &[u8], out: &mut [u8]) -> usize {
    // SAFETY: both pointers come with the lengths of their slices
    unsafe { product::nofjerm_plan_sheet(sheet.as_ptr(), sheet.len(), out.as_mut_ptr(), out.len()) }
}

fn time(run: impl FnOnce()) -> Duration {
    let start = Instant::now();
    run();
    start.elapsed()
}

fn median(times: &mut [Duration]) -> f64 {
    times.sort_unstable();
    let middle = times.len() / 2;
    let half = if times.len().is_multiple_of(2) { times[middle - 1] + times[middle] } else { 2 * times[middle] };
    half.as_secs_f64() * 1e6 / 2.0
}

/// Medians in microseconds: of the product, and of the plain planner.
fn measure(sheet: &[u8], runs: usize) -> Result<[f64; 2], Box<dyn Error>> {
    let mut written = vec![0; OUTPUT_ROOM];
    let mut text = Vec::with_capacity(OUTPUT_ROOM);
    let mut times = [Vec::with_capacity(runs), Vec::with_capacity(runs)];
    for run in 0..WARM_UP + runs {
        let mut length = 0;
        let mut product = || time(|| length = black_box(product_plan(black_box(sheet), &mut written)));
        let mut plain = || {
            text.clear();
            time(|| plain::plan_sheet(black_box(sheet), black_box(&mut text)))
        };
        // in turn, and each first in every other run
        let (product, plain) = if run % 2 == 0 {
            let product = product();
            (product, plain())
        } else {
            let plain = plain();
            (product(), plain)
        };
        if written[..length] != text[..] {
            return Err("the two write different texts".into());
        }
        if run >= WARM_UP {
            times[0].push(product);
            times[1].push(plain);
        }
    }
    if text.starts_with(b"refused") {
        return Err("a sheet of the benchmark is refused".into());
    }
    Ok(times.map(|mut times| median(&mut times)))
}

fn main() -> Result<(), Box<dyn Error>> {
    let mut runs = RUNS;
    let mut exact = false;
    let mut arguments = env::args().skip(1);
    while let Some(argument) = arguments.next() {
        match argument.as_str() {
            "--runs" => runs = arguments.next().ok_or("--runs takes a number")?.parse::<usize>()?.max(1),
            "--exact" => exact = true,
            _ => return Err("usage: times [--runs N] [--exact]".into()),
        }
    }

    println!("| shape | jobs | product, µs | plain Rust, µs | product / plain | exact linear program, µs |");
    println!("|---|--:|--:|--:|--:|--:|");
    let mut growth = Vec::new();
    for shape in Shape::ALL {
        let mut medians = Vec::new();
        for jobs in SIZES {
            let sheet = shape.sheet(jobs);
            let [product, plain] = measure(&sheet, runs).map_err(|fault| format!("{}, {jobs} jobs: {fault}", shape.name()))?;
            let solved = match exact && jobs == SIZES[0] {
                true => format!("{:.0}", linear::solve(&plain::read_sheet(&sheet).map_err(|_| "no sheet")?)?),
                false => String::new(),
            };
            println!("| {} | {jobs} | {product:.1} | {plain:.1} | {:.2} | {solved} |", shape.name(), product / plain);
            medians.push([product, plain]);
        }
        growth.push((shape.name(), medians[2][0] / medians[1][0], medians[2][1] / medians[1][1]));
    }
    println!();
    println!("Growth from {} to {} jobs (4 would be linear):", SIZES[1], SIZES[2]);
    for (name, product, plain) in growth {
        println!("- {name}: product {product:.2}, plain Rust {plain:.2}");
    }
    Ok(())
}
