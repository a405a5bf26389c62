//! The recorded answers: a fixed choice of small cases for each part.

use crate::answers::{answer, rendered, Operation, Request};
use crate::check::{check, strict_check};
use crate::damage;
use crate::damage::styles::{BadEnd, BAD_ENDS};
use crate::examples;
use crate::field::{self, leaf, Field};
use crate::generate;
use crate::original;
use crate::random::Random;
use crate::tags::{COLOUR, LONGEST_FILE};
use crate::wire;
use std::collections::HashSet;
use std::fs;
use std::iter;
use std::path::Path;

/// Changing it changes every recorded case.
const SEED: u64 = 20_240_607;

/// The parts and the operations that each holds.
const PARTS: [(&str, &[Operation]); 5] = [
    ("check", &[Operation::Check]),
    ("layout", &[Operation::Layout]),
    ("plain", &[Operation::Plain]),
    ("html", &[Operation::Body, Operation::Document]),
    (
        "strict",
        &[
            Operation::CheckStrict,
            Operation::BodyStrict,
            Operation::DocumentStrict,
        ],
    ),
];

/// The operations that are not of strict mode.
const LOOSE: [Operation; 5] = [
    Operation::Check,
    Operation::Layout,
    Operation::Plain,
    Operation::Body,
    Operation::Document,
];

/// Writes the pairs of files; a line on each.
pub fn write(folder: &Path) -> Result<Vec<String>, String> {
    fs::create_dir_all(folder).map_err(|e| format!("{}: {e}", folder.display()))?;
    let all = cases();
    let mut lines = Vec::new();
    for (part, operations) in PARTS {
        let chosen = all.iter().filter(|r| operations.contains(&r.operation));
        let chosen: Vec<Request> = chosen.cloned().collect();
        let answers = chosen
            .iter()
            .map(|request| wire::answer_line(&answer(request)) + "\n");
        let answers: String = answers.collect();
        put(
            &folder.join(format!("{part}.requests")),
            &wire::put_requests(&chosen),
        )?;
        put(&folder.join(format!("{part}.answers")), answers.as_bytes())?;
        lines.push(format!("{part}: {} cases", chosen.len()));
    }
    Ok(lines)
}

fn put(file: &Path, bytes: &[u8]) -> Result<(), String> {
    fs::write(file, bytes).map_err(|e| format!("{}: {e}", file.display()))
}

/// Every example first, then small accepted and damaged files.
fn cases() -> Vec<Request> {
    let mut cases: Vec<Request> = examples::all().into_iter().map(|e| e.request).collect();
    cases.extend(accepted_files().flat_map(requests_for_accepted));
    cases.extend(refused_files().into_iter().flat_map(requests_for_refused));
    cases.extend(BAD_ENDS.into_iter().flat_map(requests_for_bad_end));
    cases.extend(strict_cases());
    // Over-long files only where their answers are short.
    cases.retain(|case| case.operation == Operation::Check || case.file.len() <= LONGEST_FILE);
    let mut seen = HashSet::new();
    cases.retain(|request| seen.insert(wire::put_requests(std::slice::from_ref(request))));
    cases
}

/// So many accepted files have no 39, and so many have one.
const WITHOUT_39S: usize = 120;
const WITH_39S: usize = 14;

/// Files of up to 120 bytes, and a handful of up to 700, numbered.
fn accepted_files() -> impl Iterator<Item = (usize, Vec<u8>)> {
    let bare = random_files(SEED, generate::fields_without_39s);
    let bare = fitting(bare).take(WITHOUT_39S);
    let underlined = random_files(SEED + 3, generate::fields_without_more_returns);
    let underlined = underlined.filter(|file| is_underlined(file));
    let underlined = fitting(underlined).take(WITH_39S);
    bare.chain(underlined).enumerate()
}

fn random_files(seed: u64, fields: fn(&mut Random) -> Vec<Field>) -> impl Iterator<Item = Vec<u8>> {
    (0..).map(move |index| field::encode(&fields(&mut Random::new(seed, index))))
}

/// Those of up to 120 bytes, and each twentieth of up to 700.
fn fitting(files: impl Iterator<Item = Vec<u8>>) -> impl Iterator<Item = Vec<u8>> {
    let mut found = 0;
    files.filter(move |file| {
        let longest = if found % 20 == 19 { 700 } else { 120 };
        let fits = (longest / 12..longest).contains(&file.len());
        found += usize::from(fits);
        fits
    })
}

fn is_underlined(file: &[u8]) -> bool {
    original::underlined(file).contains(&true)
}

/// Twelve files for each refusal number from 3 to 9, all but a few small.
fn refused_files() -> Vec<(usize, Vec<u8>)> {
    let mut files = Vec::new();
    let mut left = [12; 10];
    left[..3].fill(0);
    let mut index = 0;
    while left.iter().any(|n| *n > 0) {
        let mut random = Random::new(SEED + 1, index);
        index += 1;
        let file = damage::small_file(&mut random);
        if let (Err(refusal), true) = (check(&file), file.len() < 300) {
            let number = usize::from(refusal.number);
            let small = file.len() < 100 || number == 6;
            if left[number] > 0 && small {
                left[number] -= 1;
                files.push((files.len(), file));
            }
        }
    }
    files
}

/// The file in every part, few documents among them.
fn requests_for_accepted((number, file): (usize, Vec<u8>)) -> Vec<Request> {
    let mut random = Random::new(SEED + 2, number as u64);
    let width = generate::width(&mut random, file.len());
    let laid_out = answer(&Request::layout(width, file.clone())).lent;
    let mut requests = vec![
        Request::layout(width, file.clone()),
        Request::layout(width / 2, laid_out.clone()),
    ];
    if number % 3 == 0 {
        requests.push(Request::check(file.clone()));
    }
    requests.push(page(&mut random, Operation::Plain, laid_out.clone()));
    if number % 2 == 0 {
        requests.push(page(&mut random, Operation::Plain, file));
    }
    requests.push(page(&mut random, Operation::Body, laid_out.clone()));
    if number % 30 == 7 || number == WITHOUT_39S {
        requests.push(page(&mut random, Operation::Document, laid_out));
    }
    requests
}

/// A page request whose room is mostly exact.
fn page(random: &mut Random, operation: Operation, file: Vec<u8>) -> Request {
    let length = rendered(operation, &file).map_or(0, |page| page.len());
    let room = match random.below(8) {
        0 => 0,
        1 => length.saturating_sub(1),
        2 => length + random.between(1, 5),
        _ => length,
    };
    Request::page(operation, room, file)
}

/// A badly ended style behind a good text, in every operation.
fn requests_for_bad_end(end: BadEnd) -> [Request; 5] {
    let style = iter::once(leaf(COLOUR, [1, 2, 3])).chain(end.fields());
    let bad = field::styled(style.collect(), b"b");
    let file = field::encode(&[field::text(b"a"), bad]);
    LOOSE.map(|operation| Request {
        operation,
        width: 2 * u16::from(operation == Operation::Layout),
        room: 3 * usize::from(operation.is_page()),
        file: file.clone(),
    })
}

/// So many generated files are shown in strict mode, and so many are refused by it alone.
const STRICTLY_SHOWN: usize = 14;
const STRICTLY_REFUSED: usize = 10;

/// Small files that show a CR, and small damaged ones that strict mode refuses otherwise.
fn strict_cases() -> Vec<Request> {
    let small = |file: &Vec<u8>| (12..40).contains(&file.len());
    let shown = random_files(SEED + 4, generate::fields).filter(small);
    let shown = shown.filter(|file| shows_return(file)).take(STRICTLY_SHOWN);
    let damaged = (0..).map(|index| damage::file(&mut Random::new(SEED + 5, index)));
    let refused = damaged.filter(|file| small(file) && strict_check(file) != check(file));
    let refused = refused.take(STRICTLY_REFUSED);
    let checks = refused.map(|file| Request::page(Operation::CheckStrict, 0, file));
    shown.enumerate().map(strict_page).chain(checks).collect()
}

fn shows_return(file: &[u8]) -> bool {
    let strict = rendered(Operation::BodyStrict, file);
    strict.is_ok() && strict != rendered(Operation::Body, file)
}

/// Bodies but for one document; one in four has a byte too little room.
fn strict_page((number, file): (usize, Vec<u8>)) -> Request {
    let operation = match number {
        0 => Operation::DocumentStrict,
        _ => Operation::BodyStrict,
    };
    let length = rendered(operation, &file).map_or(0, |page| page.len());
    let short = usize::from(number % 4 == 3);
    Request::page(operation, length - short, file)
}

/// The check of each, and one other operation: layout at a good or bad width, or a page.
fn requests_for_refused((number, file): (usize, Vec<u8>)) -> Vec<Request> {
    let other = match number % 5 {
        0 => Request::layout(80, file.clone()),
        1 => Request::layout(6_554, file.clone()),
        2 => Request::page(Operation::Plain, 2, file.clone()),
        3 => Request::page(Operation::Body, 2, file.clone()),
        _ => Request::page(Operation::Document, 0, file.clone()),
    };
    vec![Request::check(file), other]
}
