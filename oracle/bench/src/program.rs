//! The bench program itself, asked by standard input and output.

use std::io::{Read, Write};
use std::path::PathBuf;
use std::process::{Command, Stdio};
use std::sync::mpsc;
use std::thread;
use std::time::Duration;

/// Between two pieces of an input that is sent slowly.
const PAUSE: Duration = Duration::from_millis(4);

/// A program that takes longer for one input is taken for one that never ends.
const PATIENCE: Duration = Duration::from_secs(60);

pub struct Program(pub PathBuf);

/// Processes at a time.
const WORKERS: usize = 4;

impl Program {
    /// The outputs for several inputs with their numbers of pieces, in the same order.
    pub fn outputs(&self, inputs: &[(&[u8], usize)]) -> Vec<Result<Vec<u8>, String>> {
        let ask = |part: &[(&[u8], usize)]| -> Vec<_> {
            part.iter().map(|(input, pieces)| self.output(input, *pieces)).collect()
        };
        thread::scope(|scope| {
            let parts = inputs.chunks(inputs.len().div_ceil(WORKERS).max(1));
            let workers: Vec<_> = parts.map(|part| scope.spawn(move || ask(part))).collect();
            workers.into_iter().flat_map(|worker| worker.join().expect("a worker that ends")).collect()
        })
    }

    /// What the program writes, or why there is no telling. The input comes in so many pieces, with a pause before
    /// each but the first: a program must not take what one read gives for the whole.
    pub fn output(&self, input: &[u8], pieces: usize) -> Result<Vec<u8>, String> {
        let mut child = Command::new(&self.0)
            .stdin(Stdio::piped())
            .stdout(Stdio::piped())
            .spawn()
            .map_err(|error| format!("{} can't be run: {error}", self.0.display()))?;
        let (mut to, mut from) = (child.stdin.take().expect("piped"), child.stdout.take().expect("piped"));
        let (send, receive) = mpsc::channel();
        // writing and reading at once: either pipe may be full
        let reader = thread::spawn(move || {
            let mut bytes = Vec::new();
            let read = from.read_to_end(&mut bytes);
            let _ = send.send(read.map(|_| bytes));
        });
        let input = input.to_vec();
        let writer = thread::spawn(move || {
            for (at, piece) in input.chunks(input.len().div_ceil(pieces).max(1)).enumerate() {
                thread::sleep(PAUSE * at.min(1) as u32);
                // the program may end before it has read all, after a bad line
                if to.write_all(piece).is_err() {
                    break;
                }
            }
        });
        let bytes = receive.recv_timeout(PATIENCE);
        if bytes.is_err() {
            let _ = child.kill();
        }
        let status = child.wait().map_err(|error| error.to_string())?;
        let _ = (reader.join(), writer.join());
        match bytes {
            Err(_) => Err(format!("it doesn't end within {} s", PATIENCE.as_secs())),
            Ok(Err(error)) => Err(error.to_string()),
            Ok(Ok(_)) if !status.success() => Err(format!("it ends with {status}")),
            Ok(Ok(bytes)) => Ok(bytes),
        }
    }
}
