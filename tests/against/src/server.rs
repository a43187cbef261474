//! Calls the library through the server of tests/serve, so that it runs on any machine and a call that
//! reaches past a slice is noticed.

use crate::case::{Case, Outcome};
use paper::Reply;
use std::io::{BufReader, Read, Write};
use std::process::{Child, ChildStdin, ChildStdout, Command, Stdio};

/// What a wrong library might do, as numbered in tests/serve/serve.c.
pub const TRESPASSES: [(u8, &str); 3] = [
    (0, "a read after a slice"),
    (1, "a write before a slice"),
    (2, "a write into a sheet"),
];

/// A server, started at the first request and again after it has stopped.
pub struct Server {
    command: Vec<String>,
    running: Option<Running>,
}

struct Running {
    child: Child,
    to: ChildStdin,
    from: BufReader<ChildStdout>,
}

impl Server {
    /// The server that tests/serve/build made: "shipped" or "native".
    pub fn named(name: &str) -> Result<Server, String> {
        let file = concat!(env!("CARGO_MANIFEST_DIR"), "/../../target/serve/");
        let text = std::fs::read_to_string(format!("{file}{name}.command"))
            .map_err(|_| format!("no server {name}: tests/serve/build makes it"))?;
        Ok(Server {
            command: text.lines().map(String::from).collect(),
            running: None,
        })
    }

    /// The library's outcome for a case, or how the server stopped.
    pub fn ask(&mut self, case: &Case) -> Result<Outcome, String> {
        self.send(&case.request(), |from| {
            let replies: std::io::Result<_> = (0..case.calls()).map(|_| reply(from)).collect();
            Ok(Outcome {
                replies: replies?,
                inputs_same: take::<1>(from)? == [1],
                out: take_all(from, case.out_len())?,
            })
        })
    }

    /// Makes the server do what no library may. Returns whether that stopped it as it should.
    pub fn is_stopped_by(&mut self, trespass: u8) -> bool {
        match self.send(&[b't', trespass], |from| take::<1>(from)) {
            Ok(_) => false,
            Err(stopped) => stopped.contains("SIGSEGV"),
        }
    }

    /// Sends a request and returns what comes back or, if the server stops, how it stopped.
    fn send<T>(
        &mut self,
        request: &[u8],
        take: impl FnOnce(&mut dyn Read) -> std::io::Result<T>,
    ) -> Result<T, String> {
        let mut running = match self.running.take() {
            Some(running) => running,
            None => start(&self.command)?,
        };
        let sent = running.to.write_all(request);
        match sent.and_then(|()| take(&mut running.from)) {
            Ok(taken) => {
                self.running = Some(running);
                Ok(taken)
            }
            Err(_) => Err(stopped(running)),
        }
    }
}

fn start(command: &[String]) -> Result<Running, String> {
    let (program, words) = command.split_first().ok_or("an empty command")?;
    let mut child = Command::new(program)
        .args(words)
        .stdin(Stdio::piped())
        .stdout(Stdio::piped())
        .stderr(Stdio::null())
        .spawn()
        .map_err(|error| format!("{program} does not start: {error}"))?;
    let to = child.stdin.take().ok_or("no standard input")?;
    let from = BufReader::new(child.stdout.take().ok_or("no standard output")?);
    Ok(Running { child, to, from })
}

fn stopped(running: Running) -> String {
    let Running { mut child, to, .. } = running;
    drop(to);
    match child.wait() {
        Ok(status) => format!("the server stopped, {status}"),
        Err(error) => format!("the server stopped, {error}"),
    }
}

fn take<const N: usize>(from: &mut dyn Read) -> std::io::Result<[u8; N]> {
    let mut bytes = [0; N];
    from.read_exact(&mut bytes)?;
    Ok(bytes)
}

fn take_all(from: &mut dyn Read, length: usize) -> std::io::Result<Vec<u8>> {
    let mut bytes = vec![0; length];
    from.read_exact(&mut bytes)?;
    Ok(bytes)
}

fn reply(from: &mut dyn Read) -> std::io::Result<Reply> {
    Ok(Reply {
        code: u32::from_le_bytes(take(from)?),
        number: u64::from_le_bytes(take(from)?),
    })
}

impl Drop for Server {
    /// A server ends when its input does.
    fn drop(&mut self) {
        if let Some(running) = self.running.take() {
            stopped(running);
        }
    }
}
