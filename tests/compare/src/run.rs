//! One process for one input.

use std::fs::File;
use std::io::{self, Read};
use std::path::Path;
use std::process::{Command, Stdio};
use std::sync::mpsc;
use std::thread;
use std::time::Duration;

/// What a process left behind.
pub struct Left {
    pub output: Vec<u8>,
    pub errors: Vec<u8>,
    /// None if it was ended by a signal or ran too long.
    pub status: Option<i32>,
}

/// Runs `program < input`; ends it when it has not closed its output in time.
pub fn run(program: &[String], input: &Path, limit: Duration) -> io::Result<Left> {
    let mut child = Command::new(&program[0])
        .args(&program[1..])
        .stdin(File::open(input)?)
        .stdout(Stdio::piped())
        .stderr(Stdio::piped())
        .spawn()?;
    let output = reader(child.stdout.take());
    let errors = reader(child.stderr.take());
    let (mut late, mut left) = (false, Vec::new());
    for stream in [output, errors] {
        let bytes = stream.recv_timeout(limit).or_else(|_| {
            late = true;
            child.kill()?;
            Ok::<_, io::Error>(Vec::new())
        })?;
        left.push(bytes);
    }
    let status = child.wait()?.code().filter(|_| !late);
    let errors = left.pop().unwrap_or_default();
    let output = left.pop().unwrap_or_default();
    Ok(Left {
        output,
        errors,
        status,
    })
}

/// Reads a stream to its end beside the others, so that no pipe fills up.
fn reader(stream: Option<impl Read + Send + 'static>) -> mpsc::Receiver<Vec<u8>> {
    let (send, receive) = mpsc::channel();
    thread::spawn(move || {
        let mut bytes = Vec::new();
        if let Some(mut stream) = stream {
            let _ = stream.read_to_end(&mut bytes);
        }
        let _ = send.send(bytes);
    });
    receive
}
