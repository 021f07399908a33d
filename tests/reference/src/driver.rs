//! Talks to the driver: a process that answers requests by calls of the engine that is compared.

mod frames;

use crate::face::{Reply, Request};
use crate::random::Random;
use std::io::{self, BufReader, Read, Write};
use std::process::{Child, ChildStdin, ChildStdout, Command, Stdio};
use std::sync::mpsc::{self, Receiver, RecvTimeoutError, Sender};
use std::thread;
use std::time::Duration;

/// An engine always returns: one that takes so long for one request doesn't.
const PATIENCE: Duration = Duration::from_secs(120);

/// How the driver lends the engine a request's slices.
#[derive(Clone, Copy, Debug)]
pub struct Lending {
    place: Place,
    /// Whether an empty slice is lent as a null pointer.
    empty_is_null: bool,
}

#[derive(Clone, Copy, Debug)]
enum Place {
    Heap,
    /// Right before memory that can't be accessed, or right behind it.
    BeforeGuard,
    BehindGuard,
}

impl Lending {
    pub fn draw(random: &mut Random) -> Lending {
        Lending {
            place: random.pick(&[Place::Heap, Place::BeforeGuard, Place::BehindGuard]),
            empty_is_null: random.one_in(2),
        }
    }
}

/// Each pipe has a thread of its own. So neither side waits for the other to empty one, however many
/// requests are under way, and a driver that stops reading is found by the reply that is missing.
pub struct Driver {
    process: Child,
    /// Requests not sent yet.
    batch: Vec<u8>,
    requests: Option<Sender<Vec<u8>>>,
    replies: Receiver<Vec<u8>>,
}

impl Driver {
    /// Starts a command of the shell.
    pub fn start(command: &str) -> io::Result<Driver> {
        let mut process = Command::new("sh")
            .arg("-c")
            .arg(format!("exec {command}"))
            .stdin(Stdio::piped())
            .stdout(Stdio::piped())
            .spawn()?;
        let (requests, from_here) = mpsc::channel();
        let (to_here, replies) = mpsc::channel();
        if let Some(input) = process.stdin.take() {
            thread::spawn(move || write_batches(input, from_here));
        }
        if let Some(output) = process.stdout.take() {
            thread::spawn(move || read_frames(output, to_here));
        }
        Ok(Driver {
            process,
            batch: Vec::new(),
            requests: Some(requests),
            replies,
        })
    }

    /// Adds a request to the batch.
    pub fn add(&mut self, request: &Request, lending: Lending) {
        let frame = frames::request(request, lending);
        self.batch.extend((frame.len() as u32).to_be_bytes());
        self.batch.extend(frame);
    }

    /// Sends the batch.
    pub fn send(&mut self) {
        let batch = std::mem::take(&mut self.batch);
        if let Some(requests) = &self.requests {
            // A driver that has ended is found by `receive`, at the first request without a reply.
            let _ = requests.send(batch);
        }
    }

    /// The next reply; the request that it is for is the oldest one without.
    pub fn receive(&mut self, request: &Request) -> Result<Reply, String> {
        match self.replies.recv_timeout(PATIENCE) {
            Ok(frame) => frames::reply(request, &frame),
            Err(RecvTimeoutError::Timeout) => {
                Err(format!("no reply within {} seconds", PATIENCE.as_secs()))
            }
            Err(RecvTimeoutError::Disconnected) => {
                self.requests = None;
                Err(match self.process.wait() {
                    Ok(status) => format!("no reply: the driver ended with {status}"),
                    Err(error) => format!("no reply: {error}"),
                })
            }
        }
    }

    /// Ends the input. The driver must then end by itself, with nothing more to say.
    pub fn finish(mut self) -> Result<(), String> {
        self.requests = None;
        match self.replies.recv_timeout(PATIENCE) {
            Ok(_) => return Err("a reply without a request".to_string()),
            Err(RecvTimeoutError::Timeout) => return Err("it doesn't end".to_string()),
            Err(RecvTimeoutError::Disconnected) => {}
        }
        match self.process.wait() {
            Ok(status) if status.success() => Ok(()),
            Ok(status) => Err(format!("it ended with {status}")),
            Err(error) => Err(error.to_string()),
        }
    }
}

impl Drop for Driver {
    fn drop(&mut self) {
        // One that has ended can't be killed any more, and that is as good.
        let _ = self.process.kill();
        let _ = self.process.wait();
    }
}

/// Until there are no more, or nobody reads them.
fn write_batches(mut input: ChildStdin, from: Receiver<Vec<u8>>) {
    for batch in from {
        if input.write_all(&batch).is_err() {
            return;
        }
    }
}

/// Passes on every whole frame until the output ends or nobody listens.
fn read_frames(output: ChildStdout, to: Sender<Vec<u8>>) {
    let mut output = BufReader::new(output);
    while let Ok(frame) = read_frame(&mut output) {
        if to.send(frame).is_err() {
            return;
        }
    }
}

fn read_frame(output: &mut impl Read) -> io::Result<Vec<u8>> {
    let mut length = [0; 4];
    output.read_exact(&mut length)?;
    let mut frame = vec![0; u32::from_be_bytes(length) as usize];
    output.read_exact(&mut frame)?;
    Ok(frame)
}
