//! The two programs as processes. None of them outlives the test.

use super::Place;
use std::fs::{self, File};
use std::io::{self, BufRead, BufReader};
use std::os::unix::process::CommandExt;
use std::path::Path;
use std::process::{Child, Command, Output, Stdio};
use std::thread;
use std::time::{Duration, Instant};

/// Whatever is waited for comes sooner than this, or never.
const PATIENCE: Duration = Duration::from_secs(60);

pub struct Server {
    process: Child,
}

/// How a server that doesn't serve has ended.
#[derive(Debug)]
pub struct Ended {
    pub status: Option<i32>,
    pub message: String,
}

impl Server {
    pub fn fresh(place: &Place) -> Result<Server, String> {
        Server::start(place, &["--fresh"])
    }

    pub fn again(place: &Place) -> Result<Server, String> {
        Server::start(place, &[])
    }

    pub fn start(place: &Place, options: &[&str]) -> Result<Server, String> {
        Server::try_start(place, options, &place.socket(), &place.file(), None)?
            .map_err(|ended| format!("the server doesn't start: {ended:?}"))
    }

    /// It stops itself at this moment of a change.
    pub fn start_to_stop_at(place: &Place, moment: &str) -> Result<Server, String> {
        Server::try_start(place, &[], &place.socket(), &place.file(), Some(moment))?
            .map_err(|ended| format!("the server doesn't start: {ended:?}"))
    }

    /// Returns when it serves, or has ended.
    pub fn try_start(
        place: &Place,
        options: &[&str],
        socket: &Path,
        file: &Path,
        stop_at: Option<&str>,
    ) -> Result<Result<Server, Ended>, String> {
        let log = place.new_log();
        let mut command = Command::new(&place.programs.start);
        command
            .arg(&place.programs.server)
            .args(options)
            .args([socket, file])
            .stdin(Stdio::null())
            .stdout(Stdio::piped())
            .stderr(File::create(&log).map_err(|error| error.to_string())?);
        if let Some(moment) = stop_at {
            command.env("SERVER_STOP_AT", moment);
        }
        end_with_this_thread(&mut command);
        let mut process = command.spawn().map_err(|error| error.to_string())?;
        let mut line = String::new();
        if let Some(output) = process.stdout.take() {
            let _ = BufReader::new(output).read_line(&mut line);
        }
        let mut server = Server { process };
        if line.contains("is served at") {
            return Ok(Ok(server));
        }
        let status = server.process.wait().map_err(|error| error.to_string())?;
        Ok(Err(Ended {
            status: status.code(),
            message: fs::read_to_string(&log).unwrap_or_default(),
        }))
    }

    /// As `kill -9` does it.
    pub fn kill(mut self) -> Result<(), String> {
        self.process
            .kill()
            .and_then(|()| self.process.wait())
            .map(|_| ())
            .map_err(|error| format!("the server can't be killed: {error}"))
    }

    pub fn is_alive(&mut self) -> bool {
        matches!(self.process.try_wait(), Ok(None))
    }

    /// Returns when the process is stopped.
    pub fn wait_until_stopped(&self) -> Result<(), String> {
        let path = format!("/proc/{}/stat", self.process.id());
        let start = Instant::now();
        while start.elapsed() < PATIENCE {
            // The state stands behind the name, which is in parentheses.
            let text = fs::read_to_string(&path).map_err(|error| format!("{path}: {error}"))?;
            if text
                .rsplit(')')
                .next()
                .is_some_and(|rest| rest.starts_with(" T"))
            {
                return Ok(());
            }
            thread::sleep(Duration::from_millis(1));
        }
        Err("the server doesn't stop at its moment".to_string())
    }
}

impl Drop for Server {
    fn drop(&mut self) {
        // One that has ended can't be killed any more, and that is as good.
        let _ = self.process.kill();
        let _ = self.process.wait();
    }
}

pub struct Shown {
    pub status: Option<i32>,
    pub output: String,
    pub message: String,
}

/// Runs the client to its end.
pub fn client(place: &Place, words: &[&str]) -> Result<Shown, String> {
    let (options, rest) = match words {
        ["--office", rest @ ..] => (&words[..1], rest),
        _ => (&words[..0], words),
    };
    let Output {
        status,
        stdout,
        stderr,
    } = Command::new(&place.programs.start)
        .arg(&place.programs.client)
        .args(options)
        .arg(place.socket())
        .args(rest)
        .stdin(Stdio::null())
        .output()
        .map_err(|error| format!("the client: {error}"))?;
    Ok(Shown {
        status: status.code(),
        output: String::from_utf8_lossy(&stdout).into_owned(),
        message: String::from_utf8_lossy(&stderr).into_owned(),
    })
}

extern "C" {
    fn prctl(option: i32, ...) -> i32;
}

/// The kernel kills the process when this thread ends, also where the test itself is killed.
fn end_with_this_thread(command: &mut Command) {
    const PR_SET_PDEATHSIG: i32 = 1;
    const SIGKILL: u64 = 9;
    let ask = || match unsafe { prctl(PR_SET_PDEATHSIG, SIGKILL) } {
        0 => Ok(()),
        _ => Err(io::Error::last_os_error()),
    };
    // SAFETY: between fork and exec it makes one system call and allocates nothing.
    unsafe { command.pre_exec(ask) };
}
