//! The formats: request batches, response batches, answer lines.

use crate::answers::{Answer, Operation, Outcome, Request};
use crate::hex::hex;

/// Writes one request: op byte, width, room, file length, file; high bytes first.
fn put_request(out: &mut Vec<u8>, request: &Request) {
    out.push(request.operation as u8);
    out.extend(request.width.to_be_bytes());
    put_u32(out, request.room);
    put_u32(out, request.file.len());
    out.extend(&request.file);
}

pub fn put_requests(requests: &[Request]) -> Vec<u8> {
    let mut out = Vec::new();
    for request in requests {
        put_request(&mut out, request);
    }
    out
}

fn put_u32(out: &mut Vec<u8>, number: usize) {
    let number = u32::try_from(number).expect("no file and no page reaches 4 gigabytes");
    out.extend(number.to_be_bytes());
}

/// Writes one response: status (0 accepted, else the refusal's number), count
/// or place, length of the lent bytes, the lent bytes.
pub fn put_outcome(out: &mut Vec<u8>, outcome: &Outcome) {
    let (status, number) = match outcome.answer {
        Answer::Accepted(count) => (0, count),
        Answer::Refused { number, place } => (number, place),
    };
    out.push(status);
    put_u32(out, number);
    put_u32(out, outcome.lent.len());
    out.extend(&outcome.lent);
}

/// Reads a whole request batch.
pub fn requests(batch: &[u8]) -> Result<Vec<Request>, String> {
    let mut reader = Reader { batch, at: 0 };
    let mut requests = Vec::new();
    while reader.at < batch.len() {
        let start = reader.at;
        let request = reader.request();
        requests.push(request.map_err(|why| format!("request at byte {start}: {why}"))?);
    }
    Ok(requests)
}

/// Reads a response batch of so many outcomes.
pub fn outcomes(batch: &[u8], count: usize) -> Result<Vec<Outcome>, String> {
    let mut reader = Reader { batch, at: 0 };
    let mut outcomes = Vec::new();
    for number in 0..count {
        let outcome = reader.outcome();
        outcomes.push(outcome.map_err(|why| format!("response {number}: {why}"))?);
    }
    match batch.len() - reader.at {
        0 => Ok(outcomes),
        more => Err(format!("{more} bytes after the last response")),
    }
}

struct Reader<'a> {
    batch: &'a [u8],
    at: usize,
}

impl<'a> Reader<'a> {
    fn take(&mut self, length: usize) -> Result<&'a [u8], String> {
        let rest = &self.batch[self.at..];
        let taken = rest.get(..length).ok_or("cut short")?;
        self.at += length;
        Ok(taken)
    }

    fn number<const N: usize>(&mut self) -> Result<usize, String> {
        let bytes = self.take(N)?;
        Ok(bytes.iter().fold(0, |n, b| n << 8 | usize::from(*b)))
    }

    fn request(&mut self) -> Result<Request, String> {
        let op = self.number::<1>()?;
        let operation = *Operation::ALL.get(op).ok_or(format!("no operation {op}"))?;
        let width = self.number::<2>()? as u16;
        let room = self.number::<4>()?;
        let length = self.number::<4>()?;
        let file = self.take(length)?.to_vec();
        Ok(Request {
            operation,
            width,
            room,
            file,
        })
    }

    fn outcome(&mut self) -> Result<Outcome, String> {
        let status = self.number::<1>()? as u8;
        let number = self.number::<4>()?;
        let length = self.number::<4>()?;
        let lent = self.take(length)?.to_vec();
        let answer = match status {
            0 => Answer::Accepted(number),
            _ => Answer::Refused {
                number: status,
                place: number,
            },
        };
        Ok(Outcome { answer, lent })
    }
}

pub fn answer_words(answer: Answer) -> String {
    match answer {
        Answer::Accepted(count) => format!("accepted {count}"),
        Answer::Refused { number, place } => format!("refused {number} at {place}"),
    }
}

/// One line of recorded answers, without its newline.
pub fn answer_line(outcome: &Outcome) -> String {
    let words = answer_words(outcome.answer);
    if outcome.lent.is_empty() {
        words
    } else {
        format!("{words} {}", hex(&outcome.lent))
    }
}

/// A request in words, for a person.
pub fn request_words(request: &Request) -> String {
    let operation = request.operation.name();
    let detail = match request.operation {
        Operation::Check | Operation::CheckStrict => String::new(),
        Operation::Layout => format!(" at width {}", request.width),
        _ => format!(" into {} bytes", request.room),
    };
    let length = request.file.len();
    let file = hex(&request.file);
    format!("{operation}{detail}, file of {length} bytes:\n  {file}")
}
