//! Schedules: the cases beside the tests, and generated ones.

use std::{fs, io, path::Path};

use crate::frames::Program;
use crate::plain::CELLS;

/// A schedule and the cells of the memory that it runs on.
pub struct Schedule {
    pub name: String,
    pub cells: usize,
    pub text: Vec<u8>,
}

/// What a generated schedule is made of.
pub struct Mix {
    pub name: &'static str,
    pub keys: u8,
    pub workers: u8,
    pub vertex_rows: u16,
    pub edge_rows: u16,
    /// How many of 256 calls are snapshots or reaches.
    pub surveys: u64,
    /// The most turns that a frame gives; 255 gives exactly that many.
    pub most: u8,
    pub calls: usize,
}

/// Numbers that look random, the same in each run.
struct Numbers(u64);

impl Numbers {
    fn next(&mut self) -> u64 {
        self.0 ^= self.0 << 13;
        self.0 ^= self.0 >> 7;
        self.0 ^= self.0 << 17;
        self.0.wrapping_mul(0x2545_F491_4F6C_DD1D) >> 32
    }

    fn below(&mut self, n: u64) -> u64 {
        self.next() % n
    }
}

impl Mix {
    /// The cells that its opening needs.
    fn cells(&self) -> usize {
        let (n, w) = (usize::from(self.keys), usize::from(self.workers));
        let rows = 3 * usize::from(self.vertex_rows) + 6 * usize::from(self.edge_rows);
        1 + n + n * n + w * rows + w * (n + n * n)
    }

    /// A call that can be begun.
    fn begin(&self, numbers: &mut Numbers, worker: u64) -> String {
        let i = numbers.below(self.keys.into());
        let j = (i + 1 + numbers.below(u64::from(self.keys) - 1)) % u64::from(self.keys);
        let weight = 1 + numbers.below(1_000_000);
        let call = match numbers.below(256) {
            n if n < self.surveys => 7 + n % 2,
            _ => [1, 1, 2, 3, 4, 4, 4, 5, 6, 6][numbers.below(10) as usize],
        };
        format!("02{worker:02X}{call:02X}{i:02X}{j:02X}{weight:08X}\n")
    }

    /// A run of the mix. The plain stepper says which workers are idle, so that no frame is refused.
    pub fn schedule(&self) -> Schedule {
        let mut numbers = Numbers(0x9E37_79B9_7F4A_7C15);
        let mut program = Program::on(self.cells());
        let mut text = format!(
            "01{:02X}{:02X}{:04X}{:04X}3B9ACA00\n",
            self.keys, self.workers, self.vertex_rows, self.edge_rows
        );
        let mut reply = Vec::new();
        program.replay(text.as_bytes(), &mut reply);
        assert_eq!(reply, b"8100\n");
        let mut busy = [false; 8];
        let mut begun = 0;
        while begun < self.calls {
            let worker = numbers.below(self.workers.into());
            let w = worker as usize;
            let frame = if busy[w] {
                let turns = match self.most {
                    255 => 255,
                    most => 1 + numbers.below(most.into()),
                };
                format!("03{worker:02X}{turns:02X}\n")
            } else {
                begun += 1;
                self.begin(&mut numbers, worker)
            };
            reply.clear();
            program.replay(frame.as_bytes(), &mut reply);
            busy[w] = reply[2..4] == *b"00";
            text.push_str(&frame);
        }
        Schedule {
            name: self.name.into(),
            cells: self.cells(),
            text: text.into_bytes(),
        }
    }
}

/// The folders of cases, from the folder of the benchmark: schedules with their replies beside them.
pub const FOLDERS: [&str; 3] = ["tests/cases", "../schedules", "../schedules/annotated"];

/// The cases in a folder, by name.
pub fn cases(folder: &Path) -> io::Result<Vec<Schedule>> {
    let mut all = Vec::new();
    for entry in fs::read_dir(folder)? {
        let path = entry?.path();
        if path.extension().is_some_and(|extension| extension == "hex") {
            all.push(Schedule {
                name: path.with_extension("").to_string_lossy().into(),
                cells: CELLS,
                text: fs::read(&path)?,
            });
        }
    }
    all.sort_by(|a, b| a.name.cmp(&b.name));
    Ok(all)
}
