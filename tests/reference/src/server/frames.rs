//! What goes over the socket.

use super::commands::Command;
use crate::bytes;
use std::io::{ErrorKind, Read, Write};
use std::net::Shutdown;
use std::os::unix::net::UnixStream;
use std::path::Path;
use std::time::Duration;

/// A server always answers, refuses or ends: one that takes so long doesn't.
const PATIENCE: Duration = Duration::from_secs(60);

#[derive(Debug, PartialEq, Eq)]
pub enum Reply {
    Answer(Answer),
    Refusal {
        status: u32,
        reason: String,
    },
    /// The connection ended before the first byte.
    End,
}

#[derive(Debug, PartialEq, Eq)]
pub struct Answer {
    pub number: u32,
    pub key: u32,
    pub code: u32,
    pub status: u32,
    pub count: u64,
    pub next_length: u64,
    pub input: Vec<u8>,
}

pub fn request(command: &Command, input_length: u32) -> Vec<u8> {
    [
        &head(
            command.cdb.len() as u32,
            command.out.len() as u32,
            input_length,
        )[..],
        &command.cdb,
        &command.out,
    ]
    .concat()
}

pub fn head(cdb_length: u32, out_length: u32, input_length: u32) -> Vec<u8> {
    [
        b"HWQ1",
        &cdb_length.to_be_bytes()[..],
        &out_length.to_be_bytes(),
        &input_length.to_be_bytes(),
    ]
    .concat()
}

/// The test's end of a connection.
pub struct Peer {
    stream: UnixStream,
}

impl Peer {
    pub fn connect(socket: &Path) -> Result<Peer, String> {
        let stream = UnixStream::connect(socket).map_err(|error| format!("connect: {error}"))?;
        stream
            .set_read_timeout(Some(PATIENCE))
            .and_then(|()| stream.set_write_timeout(Some(PATIENCE)))
            .map_err(|error| error.to_string())?;
        Ok(Peer { stream })
    }

    /// The server may have refused already and be gone, so that not all of it can be sent.
    pub fn send(&mut self, bytes: &[u8]) {
        let _ = self.stream.write_all(bytes);
    }

    /// Whether the server still takes bytes.
    pub fn can_send(&mut self, byte: u8) -> bool {
        self.stream.write_all(&[byte]).is_ok()
    }

    /// There is nothing more to send.
    pub fn end(&mut self) {
        let _ = self.stream.shutdown(Shutdown::Write);
    }

    pub fn ask(&mut self, command: &Command, input_length: u32) -> Result<Answer, String> {
        self.send(&request(command, input_length));
        self.answer()
    }

    pub fn answer(&mut self) -> Result<Answer, String> {
        match self.reply()? {
            Reply::Answer(answer) => Ok(answer),
            other => Err(format!("no answer, but {other:?}")),
        }
    }

    /// The reason of a refusal with this status, after which the server must have closed.
    pub fn refusal(&mut self, due: u32) -> Result<String, String> {
        let reason = match self.reply()? {
            Reply::Refusal { status, reason } if status == due => reason,
            other => return Err(format!("no refusal with status {due}, but {other:?}")),
        };
        match self.reply()? {
            Reply::End => Ok(reason),
            other => Err(format!("the turn goes on after a refusal: {other:?}")),
        }
    }

    pub fn reply(&mut self) -> Result<Reply, String> {
        let mut magic = [0; 4];
        match self.stream.read_exact(&mut magic) {
            Ok(()) => {}
            // Where not all that was sent has been read, the end of the connection is a reset.
            Err(error)
                if matches!(
                    error.kind(),
                    ErrorKind::UnexpectedEof | ErrorKind::ConnectionReset
                ) =>
            {
                return Ok(Reply::End)
            }
            Err(error) => return Err(format!("no reply: {error}")),
        }
        match &magic {
            b"HWA1" => self.rest_of_answer(),
            b"HWR1" => self.rest_of_refusal(),
            other => Err(format!("a reply begins with {other:?}")),
        }
    }

    fn rest_of_answer(&mut self) -> Result<Reply, String> {
        let head = self.take(36)?;
        Ok(Reply::Answer(Answer {
            number: bytes::get_u32(&head, 0),
            key: bytes::get_u32(&head, 4),
            code: bytes::get_u32(&head, 8),
            status: bytes::get_u32(&head, 12),
            count: bytes::get_u64(&head, 16),
            next_length: bytes::get_u64(&head, 24),
            input: self.take(bytes::get_u32(&head, 32) as usize)?,
        }))
    }

    fn rest_of_refusal(&mut self) -> Result<Reply, String> {
        let head = self.take(8)?;
        let reason = self.take(bytes::get_u32(&head, 4) as usize)?;
        if reason.len() > 200 || !reason.iter().all(|byte| matches!(byte, b' '..=b'~')) {
            return Err("a refusal's reason isn't in words".to_string());
        }
        Ok(Reply::Refusal {
            status: bytes::get_u32(&head, 0),
            reason: String::from_utf8_lossy(&reason).into_owned(),
        })
    }

    fn take(&mut self, size: usize) -> Result<Vec<u8>, String> {
        let mut taken = vec![0; size];
        match self.stream.read_exact(&mut taken) {
            Ok(()) => Ok(taken),
            Err(error) => Err(format!("a reply is cut off: {error}")),
        }
    }
}
