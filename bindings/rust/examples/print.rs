//! Prints a fragment file laid out at a width: `print [--html] WIDTH FILE`, as a plain page, or as an HTML document.

use hazomeny::{append_html_document, append_plain_page, layout_file, Refusal};
use std::io::{self, Write};
use std::process::ExitCode;
use std::{env, fs};

fn main() -> ExitCode {
    let mut words: Vec<String> = env::args().skip(1).collect();
    let html = words.first().is_some_and(|word| word == "--html");
    if html {
        words.remove(0);
    }
    let [width, path] = &words[..] else {
        return mistake("usage: print [--html] WIDTH FILE");
    };
    let Ok(width) = width.parse() else {
        return mistake(&format!("{width} is no width"));
    };
    let file = match fs::read(path) {
        Ok(file) => file,
        Err(why) => return mistake(&format!("{path}: {why}")),
    };
    match printed(file, width, html) {
        Ok(page) => match io::stdout().write_all(&page) {
            Ok(()) => ExitCode::SUCCESS,
            Err(why) => mistake(&why.to_string()),
        },
        Err(refusal) => {
            eprintln!("{refusal}");
            ExitCode::FAILURE
        }
    }
}

fn printed(mut file: Vec<u8>, width: usize, html: bool) -> Result<Vec<u8>, Refusal> {
    layout_file(&mut file, width)?;
    let mut page = Vec::new();
    match html {
        true => append_html_document(&file, &mut page)?,
        false => append_plain_page(&file, &mut page)?,
    };
    Ok(page)
}

/// A refusal exits with 1; whatever is not the file's fault with 2.
fn mistake(why: &str) -> ExitCode {
    eprintln!("print: {why}");
    ExitCode::from(2)
}
