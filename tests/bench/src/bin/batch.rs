//! What `crates/batch` does, over the program's source without contracts: many inputs in one process, for tests/compare.

use std::io::{self, Read, Write};

const FRAME: usize = 65536;

/// The arrays of the library lie on the stack.
const STACK: usize = 64 << 20;

fn answer_all() -> io::Result<()> {
    let (mut input, mut output) = (io::stdin().lock(), io::stdout().lock());
    let (mut size, mut frame) = ([0; 4], vec![0; FRAME]);
    let mut out = Box::new([0; text::SIZE]);
    while input.read_exact(&mut size).is_ok() {
        input.read_exact(&mut frame)?;
        let counted = (u32::from_le_bytes(size) as usize).min(FRAME);
        let written = text::program(&frame[..counted], &mut out);
        output.write_all(&(written as u32).to_le_bytes())?;
        output.write_all(&out[..written])?;
        output.flush()?;
    }
    Ok(())
}

fn main() -> io::Result<()> {
    let worker = std::thread::Builder::new()
        .stack_size(STACK)
        .spawn(answer_all)?;
    worker.join().expect("the worker ends")
}
