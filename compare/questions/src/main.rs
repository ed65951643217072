//! Compares the library with plain Rust on random pages, and times both on a complete page.
mod ffi;
mod plain;
mod timed;

use ffi::Entry;
use plain::{Measure, Page, Total, Weakest, entry};
use std::hint::black_box;
use std::time::{Duration, Instant};

struct Random(u64);

impl Random {
    fn next(&mut self) -> u64 {
        self.0 = self.0.wrapping_add(0x9E37_79B9_7F4A_7C15);
        let mut z = self.0;
        z = (z ^ (z >> 30)).wrapping_mul(0xBF58_476D_1CE4_E5B9);
        z = (z ^ (z >> 27)).wrapping_mul(0x94D0_49BB_1331_11EB);
        z ^ (z >> 31)
    }

    fn below(&mut self, n: u64) -> u64 {
        self.next() % n
    }

    fn pick<T: Copy>(&mut self, xs: &[T]) -> T {
        xs[self.below(xs.len() as u64) as usize]
    }
}

const WEIGHTS: [(u32, u32); 5] =
    [(1, 9), (1, 1_000_000), (4_294_900_000, u32::MAX), (1_000_000_000, 3_000_000_000), (1, u32::MAX)];

fn cells(r: &mut Random, n: usize) -> Vec<u32> {
    let shown = r.pick(&[100, 100, 90, 50]);
    let edges = r.pick(&[2, 5, 10, 30, 70, 100]);
    let (low, high) = r.pick(&WEIGHTS);
    let mut cells = Vec::with_capacity(n + n * n);
    for _ in 0..n {
        cells.push(if r.below(100) < shown { 1 + r.below(u64::from(u32::MAX)) as u32 } else { 0 });
    }
    for _ in 0..n * n {
        let weight = low + r.below(u64::from(high - low) + 1) as u32;
        cells.push(if r.below(100) < edges { weight } else { plain::NOTHING });
    }
    cells
}

type Asked = fn(&[u32], usize, usize, &mut [Entry]) -> u8;

fn best_differs<M: Measure>(asked: Asked, page: &Page, start: usize, area: usize) -> bool {
    let old = Entry { mark: 7, value: 77 };
    let mut out = vec![old; area];
    let code = asked(page.cells, page.keys, start, &mut out);
    let mut want = vec![old; area];
    let refusal = page.refusal(start, area);
    if refusal == 0 {
        for (k, value) in page.best::<M>(start).into_iter().enumerate() {
            want[k] = entry(value);
        }
    }
    code != refusal || out != want
}

fn order_differs(page: &Page, start: usize, area: usize) -> bool {
    let (mut out, mut count) = (vec![200u8; area], 999);
    let code = ffi::order(page.cells, page.keys, start, &mut out, &mut count);
    let (mut want, mut want_count) = (vec![200u8; area], 999);
    let refusal = page.refusal(start, area);
    if refusal == 0 {
        let listed = page.order(start);
        want_count = listed.len();
        want[..listed.len()].copy_from_slice(&listed);
    }
    code != refusal || out != want || count != want_count
}

/// How many of the three questions are answered in another way.
fn differences(page: &Page, start: usize, area: usize) -> u64 {
    u64::from(order_differs(page, start, area))
        + u64::from(best_differs::<Total>(ffi::total, page, start, area))
        + u64::from(best_differs::<Weakest>(ffi::weakest, page, start, area))
}

fn compare(pages: u64, r: &mut Random) -> u64 {
    let (mut differ, mut asked, mut refused) = (0, 0u64, 0u64);
    for _ in 0..pages {
        let n = 1 + r.below(64) as usize;
        let mut cells = cells(r, n);
        let mut keys = n;
        if r.below(50) == 0 {
            keys = r.pick(&[0, n + 1, 65, usize::MAX]);
        }
        if r.below(50) == 0 {
            cells.pop();
        }
        let page = Page { cells: &cells, keys };
        for _ in 0..4 {
            let start = r.below(n as u64 + 1) as usize;
            let area = if r.below(20) == 0 { n - 1 } else { n + r.below(4) as usize };
            differ += differences(&page, start, area);
            asked += 3;
            refused += 3 * u64::from(page.refusal(start, area) != 0);
        }
    }
    println!("{pages} pages, {asked} questions, {refused} of them refused: {differ} differences");
    differ
}

fn time(mut f: impl FnMut()) -> Duration {
    let mut least = Duration::MAX;
    for _ in 0..7 {
        let start = Instant::now();
        for _ in 0..2000 {
            f();
        }
        least = least.min(start.elapsed() / 2000);
    }
    least
}

fn ratio(name: &str, rattle: Duration, rust: Duration) {
    let ratio = rattle.as_secs_f64() / rust.as_secs_f64();
    println!("{name:<22} Rattle {:>7.2} us   Rust {:>7.2} us   ratio {ratio:.2}", rattle.as_secs_f64() * 1e6, rust.as_secs_f64() * 1e6);
}

/// Complete pages of 64 keys: random weights, and weights by which every key is offered a better value many times.
fn timing(r: &mut Random) {
    let n = 64;
    for kind in ["random", "improving"] {
        let mut cells = vec![1; n];
        for i in 0..n {
            for j in 0..n {
                cells.push(match kind {
                    "random" => 1 + r.below(1_000_000) as u32,
                    _ => if j > i { 2 * (n - i) as u32 * (j - i) as u32 } else { 1_000_000 },
                });
            }
        }
        let (mut keys, mut count) = ([0u8; 64], 0);
        let mut out = [Entry { mark: 0, value: 0 }; 64];
        let rattle = time(|| { black_box(ffi::order(black_box(&cells), n, 0, &mut keys, &mut count)); });
        let rust = time(|| { black_box(timed::order(black_box(&cells), n, 0, &mut keys)); });
        ratio(&format!("order, {kind}"), rattle, rust);
        let rattle = time(|| { black_box(ffi::total(black_box(&cells), n, 0, &mut out)); });
        let rust = time(|| timed::best::<Total>(black_box(&cells), n, 0, black_box(&mut out)));
        ratio(&format!("total, {kind}"), rattle, rust);
        let rattle = time(|| { black_box(ffi::weakest(black_box(&cells), n, 0, &mut out)); });
        let rust = time(|| timed::best::<Weakest>(black_box(&cells), n, 0, black_box(&mut out)));
        ratio(&format!("weakest, {kind}"), rattle, rust);
    }
}

fn main() {
    let numbers: Vec<u64> = std::env::args().skip(1).filter_map(|a| a.parse().ok()).collect();
    let pages = numbers.first().copied().unwrap_or(20_000);
    let mut r = Random(numbers.get(1).copied().unwrap_or(1));
    let differ = compare(pages, &mut r);
    timing(&mut r);
    std::process::exit(i32::from(differ != 0));
}
