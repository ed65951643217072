//! Times the proved stepper against the plain one, on the same schedules.

mod proved;

use std::{hint::black_box, io, path::Path, time::Instant};

use bench::frames::Program;
use bench::schedules::{cases, Mix, Schedule, FOLDERS};

/// How often each schedule is timed; the best counts.
const ROUNDS: usize = 15;

/// The least seconds that one timing takes.
const LEAST: f64 = 0.02;

/// Generated schedules: point calls, a few snapshots and reaches among them, many; whole calls and a few turns at a time.
const MIXES: [Mix; 9] = [
    mix("points N=4 W=2", 4, 2, 0, 255, 4_000),
    mix("points N=16 W=4", 16, 4, 0, 255, 12_000),
    mix("points N=64 W=8", 64, 8, 0, 255, 20_000),
    mix("mixed N=4 W=2", 4, 2, 16, 255, 4_000),
    mix("mixed N=16 W=4", 16, 4, 16, 255, 12_000),
    mix("mixed N=64 W=8", 64, 8, 8, 255, 12_000),
    mix("short N=4 W=8", 4, 8, 16, 4, 4_000),
    mix("short N=16 W=8", 16, 8, 8, 4, 12_000),
    mix("short N=64 W=8", 64, 8, 0, 4, 20_000),
];

const fn mix(
    name: &'static str,
    keys: u8,
    workers: u8,
    surveys: u64,
    most: u8,
    calls: usize,
) -> Mix {
    Mix {
        name,
        keys,
        workers,
        vertex_rows: 256,
        edge_rows: 2048,
        surveys,
        most,
        calls,
    }
}

/// The three steppers, each with its memory and its area for replies.
struct Bench<'a> {
    schedule: &'a Schedule,
    plain: Vec<u8>,
    words: Vec<u32>,
    image: Vec<u8>,
    out: Vec<u8>,
}

impl Bench<'_> {
    fn new(schedule: &Schedule) -> Bench<'_> {
        let mut bench = Bench {
            schedule,
            plain: Vec::new(),
            words: vec![0; schedule.cells],
            image: vec![0; 4 * schedule.cells],
            out: Vec::new(),
        };
        let most = bench.plain().len();
        bench.out = vec![0; most];
        bench
    }

    fn plain(&mut self) -> &[u8] {
        self.plain.clear();
        Program::on(self.schedule.cells).replay(&self.schedule.text, &mut self.plain);
        &self.plain
    }

    fn words(&mut self) -> &[u8] {
        let n = proved::words(&mut self.words, &self.schedule.text, &mut self.out);
        &self.out[..n]
    }

    fn image(&mut self) -> &[u8] {
        let n = proved::image(&mut self.image, &self.schedule.text, &mut self.out);
        &self.out[..n]
    }

    /// All replies are equal byte for byte; how many turns they report.
    fn checked(&mut self) -> u64 {
        let plain = self.plain().to_vec();
        assert!(plain == self.words(), "{}: words differ", self.schedule.name);
        assert!(plain == self.image(), "{}: image differs", self.schedule.name);
        plain.split(|&byte| byte == b'\n').map(turns).sum()
    }
}

/// The turns that a reply line reports.
fn turns(reply: &[u8]) -> u64 {
    match reply {
        [b'8', b'3', _, _, used @ ..] => std::str::from_utf8(used)
            .ok()
            .and_then(|used| u64::from_str_radix(used, 16).ok())
            .unwrap_or(0),
        _ => 0,
    }
}

/// Seconds of one call, over as many calls as take `LEAST`.
fn seconds(mut call: impl FnMut()) -> f64 {
    let mut times = 1;
    loop {
        let start = Instant::now();
        (0..times).for_each(|_| call());
        let took = start.elapsed().as_secs_f64();
        if took >= LEAST {
            return took / times as f64;
        }
        times *= 2;
    }
}

/// Times a schedule and prints its line; how fast words and image are, with plain Rust as 1.
fn measure(schedule: &Schedule) -> [f64; 2] {
    let mut bench = Bench::new(schedule);
    let turns = bench.checked();
    let mut best = [f64::INFINITY; 3];
    for _ in 0..ROUNDS {
        best[0] = best[0].min(seconds(|| { black_box(bench.plain().len()); }));
        best[1] = best[1].min(seconds(|| { black_box(bench.words().len()); }));
        best[2] = best[2].min(seconds(|| { black_box(bench.image().len()); }));
    }
    let millions = best.map(|seconds| turns as f64 / seconds / 1e6);
    let ratios = [best[0] / best[1], best[0] / best[2]];
    println!(
        "{:<38}{:>9}{:>9.1}{:>9.1}{:>9.1}{:>13.2}{:>13.2}",
        schedule.name, turns, millions[0], millions[1], millions[2], ratios[0], ratios[1]
    );
    ratios
}

fn main() -> io::Result<()> {
    let mut count = 0;
    for folder in FOLDERS {
        for case in cases(&Path::new(env!("CARGO_MANIFEST_DIR")).join(folder))? {
            Bench::new(&case).checked();
            count += 1;
        }
    }
    println!("{count} cases: all replies are equal byte for byte");
    println!("Millions of turns a second, the best of {ROUNDS} runs. A ratio is the speed of the proved stepper");
    println!("with that of plain Rust as 1: above 1 it is faster.");
    println!(
        "{:<38}{:>9}{:>9}{:>9}{:>9}{:>13}{:>13}",
        "schedule", "turns", "plain", "words", "image", "words/plain", "image/plain"
    );
    let mut product = [1.0; 2];
    for mix in &MIXES {
        let ratios = measure(&mix.schedule());
        product = [product[0] * ratios[0], product[1] * ratios[1]];
    }
    let mean = product.map(|all: f64| all.powf(1.0 / MIXES.len() as f64));
    println!("{:<74}{:>13.2}{:>13.2}", "geometric mean", mean[0], mean[1]);
    Ok(())
}
