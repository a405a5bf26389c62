//! The thing under test: it answers requests in batches.

use crate::answers::{answer, Asked, Operation, Outcome, Request, Right};
use crate::wire;
use std::io::{Read, Write};
use std::process::{Command, Stdio};
use std::thread;

/// What a subject said to one request, or how it failed to say anything.
pub type Said = Result<Outcome, String>;

pub trait Subject {
    /// The operations that it answers.
    fn parts(&self) -> &[Operation];

    /// One saying for each request. An error means that it cannot be asked at all.
    fn answer(&mut self, requests: &[Request]) -> Result<Vec<Said>, String>;

    /// Whether it says just what is right; none if it cannot be asked for so
    /// little at once, but in batches. It saves copies of files and pages.
    fn agrees(&mut self, _asked: Asked, _right: Right) -> Option<bool> {
        None
    }
}

/// What a subject says to some requests, which has to be one saying for each.
pub fn ask(subject: &mut dyn Subject, requests: &[Request]) -> Result<Vec<Said>, String> {
    let said = subject.answer(requests)?;
    let (few, many) = (said.len(), requests.len());
    match few == many {
        true => Ok(said),
        false => Err(format!("{few} answers to {many} requests")),
    }
}

/// The judge itself.
pub struct Oneself;

impl Subject for Oneself {
    fn parts(&self) -> &[Operation] {
        &Operation::ALL
    }

    fn answer(&mut self, requests: &[Request]) -> Result<Vec<Said>, String> {
        Ok(requests.iter().map(|request| Ok(answer(request))).collect())
    }
}

/// A command that reads a request batch and writes the response batch.
pub struct Child {
    program: String,
    arguments: Vec<String>,
    parts: Vec<Operation>,
}

impl Child {
    /// The command's words are parted by blanks.
    pub fn new(command: &str, parts: &[Operation]) -> Result<Self, String> {
        let mut words = command.split_whitespace().map(String::from);
        Ok(Self {
            program: words.next().ok_or("the subject's command is empty")?,
            arguments: words.collect(),
            parts: parts.to_vec(),
        })
    }

    /// What the command wrote, and how it ended if that was not well.
    fn run(&self, batch: &[u8]) -> Result<(Vec<u8>, Option<String>), String> {
        let mut child = Command::new(&self.program)
            .args(&self.arguments)
            .stdin(Stdio::piped())
            .stdout(Stdio::piped())
            .spawn()
            .map_err(|e| format!("cannot start {}: {e}", self.program))?;
        let (input, output) = (child.stdin.take(), child.stdout.take());
        let mut written = Vec::new();
        thread::scope(|scope| {
            // A command may answer while it still reads. One that stops reading
            // shows by its answers, not by the broken pipe.
            scope.spawn(move || input.map(|mut input| input.write_all(batch)));
            output.map(|mut output| output.read_to_end(&mut written))
        })
        .transpose()
        .map_err(|e| e.to_string())?;
        let status = child.wait().map_err(|e| e.to_string())?;
        let ended = (!status.success()).then(|| format!("the command ended with {status}"));
        Ok((written, ended))
    }
}

impl Subject for Child {
    fn parts(&self) -> &[Operation] {
        &self.parts
    }

    /// A batch that goes wrong is asked again by halves, down to the first
    /// request that is to blame; those after it are not asked any more.
    fn answer(&mut self, requests: &[Request]) -> Result<Vec<Said>, String> {
        let (written, ended) = self.run(&wire::put_requests(requests))?;
        let read = match ended {
            Some(why) => Err(why),
            None => wire::outcomes(&written, requests.len()),
        };
        match (read, requests) {
            (Ok(outcomes), _) => Ok(outcomes.into_iter().map(Ok).collect()),
            (Err(why), [_]) => Ok(vec![Err(why)]),
            (Err(why), []) => Err(why),
            (Err(_), _) => {
                let (front, back) = requests.split_at(requests.len() / 2);
                let mut said = self.answer(front)?;
                if said.iter().all(Result::is_ok) {
                    said.extend(self.answer(back)?);
                }
                said.resize(requests.len(), Err("not asked".into()));
                Ok(said)
            }
        }
    }
}
