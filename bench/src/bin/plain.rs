//! Reads frames from standard input, one a line, and prints a reply line for each.

use std::io::{self, BufRead, BufReader, BufWriter, Write};

use bench::frames::Program;

fn main() -> io::Result<()> {
    let mut input = BufReader::new(io::stdin());
    let mut output = BufWriter::new(io::stdout());
    let mut program = Program::new();
    let mut line = Vec::new();
    let mut reply = Vec::new();
    while input.read_until(b'\n', &mut line)? > 0 {
        let frame = line.strip_suffix(b"\n").unwrap_or(&line);
        program.reply(frame, &mut reply);
        reply.push(b'\n');
        output.write_all(&reply)?;
        if input.buffer().is_empty() {
            output.flush()?;
        }
        line.clear();
        reply.clear();
    }
    output.flush()
}
