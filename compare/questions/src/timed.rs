//! The questions as a Rust programmer would write them for speed, to time the library against.
use crate::ffi::Entry;
use crate::plain::Measure;
use crate::plain::NOTHING;

pub fn order(cells: &[u32], n: usize, start: usize, out: &mut [u8]) -> usize {
    let mut seen = [false; 64];
    seen[start] = true;
    out[0] = start as u8;
    let (mut head, mut count) = (0, 1);
    while head < count {
        let k = out[head] as usize;
        let row = &cells[n + n * k..n + n * k + n];
        for (j, &cell) in row.iter().enumerate() {
            if cell != NOTHING && cells[k] != 0 && cells[j] != 0 && !seen[j] {
                seen[j] = true;
                out[count] = j as u8;
                count += 1;
            }
        }
        head += 1;
    }
    count
}

pub fn best<M: Measure>(cells: &[u32], n: usize, start: usize, out: &mut [Entry]) {
    let out = &mut out[..n];
    out.fill(Entry { mark: 0, value: 0 });
    out[start] = Entry { mark: 1, value: M::FIRST };
    let mut done = [false; 64];
    loop {
        let mut found: Option<usize> = None;
        for (k, label) in out.iter().enumerate() {
            if label.mark == 1 && !done[k] && found.is_none_or(|b| M::better(label.value, out[b].value)) {
                found = Some(k);
            }
        }
        let Some(k) = found else { return };
        done[k] = true;
        let from = out[k].value;
        let row = &cells[n + n * k..n + n * k + n];
        for (j, (label, &cell)) in out.iter_mut().zip(row).enumerate() {
            if cell != NOTHING && cells[k] != 0 && cells[j] != 0 {
                let value = M::extend(from, cell);
                if label.mark == 0 || M::better(value, label.value) {
                    *label = Entry { mark: 1, value };
                }
            }
        }
    }
}
