//! Who is judged: a program that calls the archive, one case at a time.

use std::io::{self, Read, Write};
use std::process::{Child, ChildStdin, ChildStdout, Command, Stdio};

#[derive(Debug, Clone, Copy, PartialEq, Eq, PartialOrd, Ord)]
pub enum Call {
    Premise,
    Elaborate,
    /// `samulsto_elaborate_nested`.
    Nested,
}

impl Call {
    /// All of them, in the order of tables.
    pub const ALL: [Call; 3] = [Call::Elaborate, Call::Nested, Call::Premise];

    pub fn word(self) -> &'static str {
        match self {
            Call::Premise => "premise",
            Call::Elaborate => "elaborate",
            Call::Nested => "nested",
        }
    }

    pub fn of_word(word: &str) -> Option<Call> {
        Call::ALL.into_iter().find(|call| call.word() == word)
    }
}

/// A call with buffers of these lengths, full of the noise of that number.
#[derive(Debug, Clone, Copy)]
pub struct Request<'a> {
    pub call: Call,
    pub book: &'a [u8],
    pub out: usize,
    pub work: usize,
    pub noise: u32,
    pub times: Times,
}

/// How often to call, and what for.
#[derive(Debug, Clone, Copy, PartialEq, Eq)]
pub enum Times {
    Once,
    /// Once, on a stack of which the bytes used are counted.
    ForStack,
    /// So often, more than once, to find the quickest.
    ForTime(u32),
}

/// The numbers of an answer: code, length, definitions, lifted, at; of the premise test code, holds, 0, 0, at.
pub type Numbers = [u32; 5];

/// What came of it. `out` is the result and whatever else of the output has changed.
#[derive(Debug, Clone, PartialEq, Eq)]
pub struct Reply {
    pub numbers: Numbers,
    pub out: Vec<u8>,
    pub work_not_zero: u32,
    pub strayed: u32,
    /// Bytes of stack, or nanoseconds of the quickest call; 0 where neither was asked for.
    pub measure: u32,
}

pub trait Callee {
    /// `Err` where the call did not come back.
    fn call(&mut self, request: &Request) -> Result<Reply, String>;
}

/// The harness as a process. One that ended is started anew at the next call.
pub struct Harness {
    words: Vec<String>,
    running: Option<Running>,
}

struct Running {
    child: Child,
    input: ChildStdin,
    output: ChildStdout,
}

impl Harness {
    pub fn new(words: Vec<String>) -> Result<Self, String> {
        let running = Some(started(&words)?);
        Ok(Harness { words, running })
    }
}

fn started(words: &[String]) -> Result<Running, String> {
    let unable = |error| format!("{} can't be run: {error}", words.join(" "));
    let mut child = Command::new(&words[0])
        .args(&words[1..])
        .stdin(Stdio::piped())
        .stdout(Stdio::piped())
        .spawn()
        .map_err(unable)?;
    match (child.stdin.take(), child.stdout.take()) {
        (Some(input), Some(output)) => Ok(Running {
            child,
            input,
            output,
        }),
        _ => Err(unable(io::Error::other("no pipe"))),
    }
}

impl Callee for Harness {
    fn call(&mut self, request: &Request) -> Result<Reply, String> {
        let mut running = match self.running.take() {
            Some(running) => running,
            None => started(&self.words)?,
        };
        match exchange(&mut running, request) {
            Ok(reply) => {
                self.running = Some(running);
                Ok(reply)
            }
            Err(error) => Err(ended(running, error)),
        }
    }
}

impl Drop for Harness {
    fn drop(&mut self) {
        if let Some(Running {
            mut child, input, ..
        }) = self.running.take()
        {
            drop(input);
            let _ = child.wait();
        }
    }
}

fn ended(running: Running, error: io::Error) -> String {
    let Running {
        mut child, input, ..
    } = running;
    drop(input);
    match child.wait() {
        Ok(status) => format!("the call did not come back: {status}"),
        Err(_) => format!("the call did not come back: {error}"),
    }
}

fn exchange(running: &mut Running, request: &Request) -> io::Result<Reply> {
    running.input.write_all(&encoded(request))?;
    running.input.flush()?;
    let mut head = [0; 36];
    running.output.read_exact(&mut head)?;
    let number = |place: usize| {
        let at = 4 * place;
        u32::from_le_bytes([head[at], head[at + 1], head[at + 2], head[at + 3]])
    };
    let mut out = vec![0; number(8) as usize];
    running.output.read_exact(&mut out)?;
    Ok(Reply {
        numbers: [number(0), number(1), number(2), number(3), number(4)],
        work_not_zero: number(5),
        strayed: number(6),
        measure: number(7),
        out,
    })
}

fn encoded(request: &Request) -> Vec<u8> {
    let call = match request.call {
        Call::Premise => 0,
        Call::Elaborate => 1,
        Call::Nested => 2,
    };
    let times = match request.times {
        Times::ForStack => 0,
        Times::Once => 1,
        Times::ForTime(times) => times,
    };
    let [book, out, work] =
        [request.book.len(), request.out, request.work].map(|length| length as u32);
    let mut bytes = Vec::with_capacity(24 + request.book.len());
    for number in [call, book, out, work, request.noise, times] {
        bytes.extend(number.to_le_bytes());
    }
    bytes.extend(request.book);
    bytes
}
