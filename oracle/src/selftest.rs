//! Tests the judge itself: its properties, known faults, and wrong subjects that have to be found.

mod seen;

use crate::answers::Request;
use crate::check::{check, strict_check};
use crate::compare::{self, Stop};
use crate::damage::{self, every};
use crate::extent::Extent;
use crate::field;
use crate::generate;
use crate::hex::hex;
use crate::known;
use crate::masks;
use crate::numbers::{self, Number, Tally};
use crate::pairs;
use crate::properties::{Held, Property, OF_ACCEPTED, OF_ANY};
use crate::random::Random;
use crate::scribe::Second;
use crate::scripts;
use crate::shrink::shrink;
use crate::subject::Oneself;
use crate::tags::LEAST_OPACITY;
use crate::words;
use crate::wrong::{self, Misprinter, Wrong, WrongMasker, WrongScribe};
use seen::Seen;
use std::num::NonZeroUsize;
use std::panic::{catch_unwind, AssertUnwindSafe};

/// Runs everything; what it found, or the first thing that does not hold.
pub fn run(seed: u64, files: u64) -> Result<Vec<String>, String> {
    let mut seen = Seen::default();
    for index in 0..files {
        let mut random = Random::new(seed, index);
        one(&mut random, &mut seen).map_err(|why| format!("file {index}: {why}"))?;
    }
    for file in every::files() {
        hold_all(&OF_ANY, &file, 0)?;
        if check(&file).is_ok() {
            hold_all(&OF_ACCEPTED, &file, 0)?;
        }
    }
    if let Some(missing) = seen.missing(files) {
        return Err(missing);
    }
    let mut found = vec![
        format!("{files} files, their properties hold"),
        seen.words(),
    ];
    found.extend(wrong_subjects(seed)?);
    found.push(masks_alike(seed, files / 50)?);
    found.extend(wrong_of_masks(seed)?);
    found.push(pairs_alike(seed, files / 50)?);
    found.extend(wrong_of_pairs(seed)?);
    found.push(same_words(seed, files / 50)?);
    found.extend(wrong_of_words(seed)?);
    found.push(scripts_alike(seed, files / 20)?);
    found.extend(wrong_of_scripts(seed)?);
    all_numbers()?;
    found.extend(misprints()?);
    Ok(found)
}

/// An accepted file, the same with a known fault, and a damaged file.
fn one(random: &mut Random, seen: &mut Seen) -> Held {
    let fields = generate::fields(random);
    let file = field::encode(&fields);
    let width = generate::width(random, file.len());
    hold_all(&OF_ACCEPTED, &file, width)?;
    hold_all(&OF_ANY, &file, width)?;
    seen.note(check(&file));
    seen.note_styles(&fields);
    if let Some(known) = known::fault(random, &fields) {
        let said = check(&known.file);
        if said != known.right {
            return Err(known.instead(said));
        }
        seen.note(said);
        hold_all(&OF_ANY, &known.file, width)?;
    }
    if let Some(known) = known::of_strict::fault(random, &fields) {
        let said = strict_check(&known.file);
        if said != known.right {
            return Err(known.instead(said));
        }
        seen.note(said);
    }
    let damaged = damage::file(random);
    seen.note(check(&damaged));
    hold_all(&OF_ANY, &damaged, width)
}

/// All properties of a file; for one that fails the smallest file that fails it too.
fn hold_all(properties: &[Property], file: &[u8], width: u16) -> Held {
    for (name, property) in properties {
        let fails = |file: &[u8], width| hold(*property, file, width).is_err();
        if !fails(file, width) {
            continue;
        }
        let needs_accepted = check(file).is_ok();
        let request = shrink(Request::layout(width, file.to_vec()), &mut |tried| {
            tried.iter().position(|request| {
                let kind = check(&request.file).is_ok() == needs_accepted;
                kind && fails(&request.file, request.width)
            })
        });
        let why = hold(*property, &request.file, request.width);
        let (file, width) = (hex(&request.file), request.width);
        return Err(format!(
            "\"{name}\" fails at width {width}: {why:?} for {file}"
        ));
    }
    Ok(())
}

/// A panic of the original or of the judge is a failure too.
fn hold(property: fn(&[u8], u16) -> Held, file: &[u8], width: u16) -> Held {
    catch_unwind(AssertUnwindSafe(|| property(file, width)))
        .unwrap_or_else(|_| Err("it panicked".into()))
}

/// Every wrong subject has to be found, with a file as small as said.
fn wrong_subjects(seed: u64) -> Result<Vec<String>, String> {
    let tried = |mut wrong: Wrong| {
        let parts = wrong.part;
        let ran = compare::run(&mut wrong, &parts, seed, Extent::Files(20_000));
        caught(&wrong, ran, |difference| {
            (difference.request.file.len(), difference.words())
        })
    };
    wrong::all().into_iter().map(tried).collect()
}

/// A run of a wrong subject has to end in a difference; `told` has the length
/// of its file, which has to be small, and its words.
fn caught<T, D>(
    wrong: &Wrong,
    ran: Result<T, Stop<D>>,
    told: fn(&D) -> (usize, String),
) -> Result<String, String> {
    let (name, longest) = (wrong.name, wrong.longest);
    match ran {
        Ok(_) => Err(format!("not found: {name}")),
        Err(Stop::CannotAsk(why)) => Err(format!("{name}: {why}")),
        Err(Stop::Differs(difference)) => match told(&difference) {
            (length, _) if length <= longest => Ok(format!("found in {length} bytes: {name}")),
            (length, words) => Err(format!("{name}: {length} bytes, over {longest}\n{words}")),
        },
    }
}

/// `masks` finds no fault in the judge itself.
fn masks_alike(seed: u64, files: u64) -> Result<String, String> {
    match masks::run(&mut Oneself, seed, Extent::Files(files)) {
        Ok(tally) => Ok(format!("{} files, their masks are alike", tally.files)),
        Err(Stop::CannotAsk(why)) => Err(why),
        Err(Stop::Differs(unlike)) => Err(unlike.words()),
    }
}

/// So many files are enough for `masks` and `words` to find what is wrong.
const ENOUGH: Extent = Extent::Files(2_000);

/// `masks` has to find every subject that looks at the texts.
fn wrong_of_masks(seed: u64) -> Result<Vec<String>, String> {
    let tried = |mut wrong: Wrong| {
        let ran = masks::run(&mut wrong, seed, ENOUGH);
        caught(&wrong, ran, |unlike| {
            (unlike.request.file.len(), unlike.words())
        })
    };
    wrong::of_masks().into_iter().map(tried).collect()
}

/// `pairs` finds no fault in the judge itself, and every refusal of a mask and of a pair comes up.
fn pairs_alike(seed: u64, files: u64) -> Result<String, String> {
    match pairs::run(&mut Oneself, seed, Extent::Files(files)) {
        Ok(tally) => match tally.missing().filter(|_| files >= 2_000) {
            Some(number) => Err(format!("no mask or pair was refused by {number}")),
            None => Ok(format!("masks and pairs: {}", tally.words())),
        },
        Err(Stop::CannotAsk(why)) => Err(why),
        Err(Stop::Differs(unlike)) => Err(unlike.words()),
    }
}

/// `pairs` has to find every wrong masker and every wrong reader of pairs, in small files.
fn wrong_of_pairs(seed: u64) -> Result<Vec<String>, String> {
    let tried = |mut wrong: WrongMasker| {
        let ran = pairs::run(&mut wrong, seed, ENOUGH);
        let (name, longest) = (wrong.name, wrong.longest);
        match ran {
            Ok(_) => Err(format!("not found: {name}")),
            Err(Stop::CannotAsk(why)) => Err(format!("{name}: {why}")),
            Err(Stop::Differs(unlike)) => match unlike.bytes {
                bytes if bytes <= longest => Ok(format!("found in {bytes} bytes: {name}")),
                bytes => Err(format!(
                    "{name}: {bytes} bytes, over {longest}\n{}",
                    unlike.words()
                )),
            },
        }
    };
    wrong::of_pairs().into_iter().map(tried).collect()
}

/// `words` finds no fault in the judge itself.
fn same_words(seed: u64, files: u64) -> Result<String, String> {
    match words::run(&mut Oneself, seed, Extent::Files(files)) {
        Ok(tally) => Ok(format!("the same words: {}", tally.words())),
        Err(Stop::CannotAsk(why)) => Err(why),
        Err(Stop::Differs(unlike)) => Err(unlike.words()),
    }
}

/// `words` has to find every subject that shows other words at a width, or too long a page.
fn wrong_of_words(seed: u64) -> Result<Vec<String>, String> {
    let tried = |mut wrong: Wrong| {
        let ran = words::run(&mut wrong, seed, ENOUGH);
        caught(&wrong, ran, |unlike| {
            (unlike.request.file.len(), unlike.words())
        })
    };
    wrong::of_words().into_iter().map(tried).collect()
}

/// `scripts` finds no fault in the judge's own writers, and every refusal of a writer comes up.
fn scripts_alike(seed: u64, files: u64) -> Result<String, String> {
    match scripts::run(&mut Second(Oneself), seed, Extent::Files(files)) {
        Ok(tally) => match tally.missing().filter(|_| files >= 2_000) {
            Some(number) => Err(format!("no step was refused by {number}")),
            None => Ok(format!("scripts of the writers: {}", tally.words())),
        },
        Err(Stop::CannotAsk(why)) => Err(why),
        Err(Stop::Differs(unlike)) => Err(unlike.words()),
    }
}

/// `scripts` has to find every wrong writer, in few steps.
fn wrong_of_scripts(seed: u64) -> Result<Vec<String>, String> {
    let tried = |mut wrong: WrongScribe| {
        let ran = scripts::run(&mut wrong, seed, Extent::Files(20_000));
        let (name, most) = (wrong.name, wrong.most_steps);
        match ran {
            Ok(_) => Err(format!("not found: {name}")),
            Err(Stop::CannotAsk(why)) => Err(format!("{name}: {why}")),
            Err(Stop::Differs(unlike)) => match unlike.script.calls.len() {
                steps if steps <= most => Ok(format!("found in {steps} steps: {name}")),
                steps => Err(format!(
                    "{name}: {steps} steps, over {most}\n{}",
                    unlike.words()
                )),
            },
        }
    };
    wrong::of_scripts().into_iter().map(tried).collect()
}

/// Of the opacities one in so many: enough for more files than are asked at once.
const EVERY: NonZeroUsize = NonZeroUsize::new(509).expect("it is not 0");

/// `numbers` finds no fault in the judge itself, and leaves no number out.
fn all_numbers() -> Result<(), String> {
    let right = Tally {
        opacities: 164_807,
        sizes: 246,
        weights: 256,
    };
    match numbers::run(&mut Oneself, numbers::opacities(EVERY, 0)) {
        Ok(tally) if tally == right => Ok(()),
        Ok(tally) => Err(format!("{tally:?} in place of {right:?}")),
        Err(Stop::CannotAsk(why)) => Err(why),
        Err(Stop::Differs(misprint)) => Err(misprint.words()),
    }
}

/// `numbers` has to find every misprint, with the number and both prints.
fn misprints() -> Result<Vec<String>, String> {
    wrong::misprinters().into_iter().map(misprint).collect()
}

fn misprint(mut wrong: Misprinter) -> Result<String, String> {
    let from = match wrong.number {
        Number::Opacity(bits) => bits.saturating_sub(LEAST_OPACITY) as usize % EVERY,
        Number::Size(_) | Number::Thickness(_) => 0,
    };
    let ran = numbers::run(&mut wrong, numbers::opacities(EVERY, from));
    let (number, right, said) = (wrong.number, wrong.right, wrong.wrong);
    let name = format!("{}, printed as {said}", number.words());
    match ran {
        Ok(_) => Err(format!("not found: {name}")),
        Err(Stop::CannotAsk(why)) => Err(format!("{name}: {why}")),
        Err(Stop::Differs(misprint)) => {
            let words = misprint.words();
            let says = [right, said].iter().all(|print| words.contains(*print));
            match misprint.numbers == [number] && says {
                true => Ok(format!("found: {name}")),
                false => Err(format!("{name}: found as {words}")),
            }
        }
    }
}
