//! One process for many inputs, where starting one is dear: `crates/batch` says how inputs and answers travel.

use std::io::{self, BufReader, Read, Write};
use std::process::{Child, ChildStdin, ChildStdout, Command, Stdio};

/// As many bytes as the program reads of an input.
const FRAME: usize = 65536;

pub struct Batch {
    child: Child,
    inputs: ChildStdin,
    answers: BufReader<ChildStdout>,
}

impl Batch {
    pub fn start(program: &[String]) -> io::Result<Batch> {
        let mut child = Command::new(&program[0])
            .args(&program[1..])
            .stdin(Stdio::piped())
            .stdout(Stdio::piped())
            .spawn()?;
        let (inputs, answers) = (child.stdin.take(), child.stdout.take());
        let closed = || io::Error::other("a stream of the process is closed");
        Ok(Batch {
            child,
            inputs: inputs.ok_or_else(closed)?,
            answers: BufReader::new(answers.ok_or_else(closed)?),
        })
    }

    pub fn answer(&mut self, input: &[u8]) -> io::Result<Vec<u8>> {
        let counted = input.len().min(FRAME);
        let mut frame = (counted as u32).to_le_bytes().to_vec();
        frame.extend_from_slice(&input[..counted]);
        frame.resize(4 + FRAME, 0);
        self.inputs.write_all(&frame)?;
        let mut size = [0; 4];
        self.answers.read_exact(&mut size)?;
        let mut answer = vec![0; u32::from_le_bytes(size) as usize];
        self.answers.read_exact(&mut answer)?;
        Ok(answer)
    }
}

impl Drop for Batch {
    fn drop(&mut self) {
        let _ = self.child.kill();
        let _ = self.child.wait();
    }
}
