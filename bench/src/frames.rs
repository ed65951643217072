//! Frames and replies: one line of hexadecimal digits each.

use crate::plain::{Sizes, Stepper, CELLS};

/// The longest frame, in bytes.
const LONGEST: usize = 11;

/// The program's state: nothing opened, or a run, on a number of cells.
#[derive(Clone, Debug)]
pub struct Program {
    cells: usize,
    stepper: Option<Stepper>,
}

impl Default for Program {
    fn default() -> Program {
        Program::new()
    }
}

impl Program {
    pub fn new() -> Program {
        Program::on(CELLS)
    }

    /// A program whose memory has this number of cells.
    pub fn on(cells: usize) -> Program {
        Program {
            cells,
            stepper: None,
        }
    }

    /// Adds the reply to one line, given without its line feed. The reply has no line feed either.
    pub fn reply(&mut self, line: &[u8], out: &mut Vec<u8>) {
        let mut frame = [0; LONGEST];
        let done = bytes(line, &mut frame).and_then(|frame| self.run(frame, out));
        if done.is_none() {
            put(out, &[0xFF, 0xED]);
        }
    }

    /// Adds a reply line to each line of a text.
    pub fn replay(&mut self, text: &[u8], out: &mut Vec<u8>) {
        let mut rest = text;
        while !rest.is_empty() {
            let end = rest.iter().position(|&byte| byte == b'\n');
            let line = &rest[..end.unwrap_or(rest.len())];
            self.reply(line, out);
            out.push(b'\n');
            rest = end.map_or(&[], |end| &rest[end + 1..]);
        }
    }

    /// Does what the frame says and adds its reply; none, with no reply, where ED refuses it.
    fn run(&mut self, frame: &[u8], out: &mut Vec<u8>) -> Option<()> {
        match *frame {
            [0x01, keys, workers, a1, a0, b1, b0, t3, t2, t1, t0] => {
                let sizes = Sizes {
                    keys,
                    workers,
                    vertex_rows: u16::from_be_bytes([a1, a0]),
                    edge_rows: u16::from_be_bytes([b1, b0]),
                    greatest_clock: u32::from_be_bytes([t3, t2, t1, t0]),
                };
                let code = match Stepper::open_on(sizes, vec![0; self.cells]) {
                    Ok(stepper) => {
                        self.stepper = Some(stepper);
                        0
                    }
                    Err(refused) => refused,
                };
                put(out, &[0x81, code]);
            }
            [0x02, worker, call, i, j, w3, w2, w1, w0] => {
                let weight = u32::from_be_bytes([w3, w2, w1, w0]);
                let begun = self.stepper.as_mut()?.begin(worker, call, i, j, weight);
                put(out, &[0x82, begun.err().unwrap_or(0)]);
            }
            [0x03, worker, n @ 1..=255] => {
                let (code, used) = self.stepper.as_mut()?.turns(worker, n);
                put(out, &[0x83, code, used]);
            }
            [0x04, worker] => match self.stepper.as_ref()?.page(worker) {
                Ok(page) => {
                    put(out, &[0x84, 0]);
                    for k in 0..page.keys() {
                        put(out, &[u8::from(page.shows(k))]);
                    }
                    for weight in page.weights() {
                        put(out, &weight.to_be_bytes());
                    }
                }
                Err(refused) => put(out, &[0x84, refused]),
            },
            _ => return None,
        }
        Some(())
    }
}

/// Reads the digits of a line into `frame`; none where the line is not whole bytes or is too long.
fn bytes<'a>(line: &[u8], frame: &'a mut [u8; LONGEST]) -> Option<&'a [u8]> {
    if !line.len().is_multiple_of(2) {
        return None;
    }
    let frame = frame.get_mut(..line.len() / 2)?;
    for (byte, pair) in frame.iter_mut().zip(line.chunks_exact(2)) {
        *byte = digit(pair[0])? << 4 | digit(pair[1])?;
    }
    Some(frame)
}

fn digit(symbol: u8) -> Option<u8> {
    (symbol as char).to_digit(16).map(|value| value as u8)
}

/// Adds bytes as digits in capitals.
fn put(out: &mut Vec<u8>, bytes: &[u8]) {
    const DIGITS: &[u8; 16] = b"0123456789ABCDEF";
    for &byte in bytes {
        out.push(DIGITS[usize::from(byte >> 4)]);
        out.push(DIGITS[usize::from(byte & 15)]);
    }
}
