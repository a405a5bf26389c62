//! Masks, and pairs of a file and its mask: texts of every kind and at every place, both rights, every refusal with its place.

mod fields;

use fields::*;
use hazomeny::*;
use std::ops::Range;

/// What a page is lent filled with.
const LENT: u8 = 0xa5;

fn refused<T>(number: u8, place: usize) -> Result<T, Refusal> {
    Err(Refusal { number, place })
}

fn mask_of(file: &[u8]) -> Vec<u8> {
    let mut mask = Vec::new();
    assert_eq!(append_mask(file, &mut mask), Ok(file.len()));
    mask
}

fn styled(bytes: Vec<u8>) -> Vec<u8> {
    let style = [field(32, b"abc"), field(38, b""), field(39, b"")].concat();
    field(1, &[field(16, &style), field(17, &bytes)].concat())
}

/// A file with a text of every kind, each as it is shown: empty and long ones, newlines, more bytes than characters, in anchors, in blocks, and
/// in broken blocks alone. Anchors' names and styles have bytes that a text could have.
fn shown(by: fn(&str) -> Vec<u8>) -> Vec<u8> {
    let entries = ["a", "", "b c"].map(|name| text(by(name)));
    let definition = [
        field(18, b"name"),
        text(by("name")),
        styled(by("")),
        styled(by("\u{e9}\n\u{1f600}")),
    ];
    let anchors = [
        field(2, &definition.concat()),
        field(2, &[field(19, b"name"), text(by("x"))].concat()),
        field(2, &field(19, b"")),
    ];
    let conditional = ["", ",", "\n", "long \n\n one"].map(|each| field(7, &by(each)));
    let nodes = [
        text(by("f(")),
        block(4, &entries),
        text(by(")")),
        field(5, b""),
        spaced(&entries),
        field(6, b""),
        block(3, &[anchors.concat(), Vec::new(), conditional.concat()]),
        styled(by("\n\n")),
        field(7, &by("last")),
    ];
    nodes.concat()
}

fn original() -> Vec<u8> {
    shown(|text| text.as_bytes().to_vec())
}

fn masked() -> Vec<u8> {
    shown(|text| {
        let shown = |byte| if byte == b'\n' { byte } else { b'x' };
        text.bytes().map(shown).collect()
    })
}

/// Where the bytes of each text stand, one field after the other.
fn texts(file: &[u8]) -> Vec<Range<usize>> {
    let (mut found, mut at) = (Vec::new(), 0);
    while let [tag, high, low, ..] = file[at..] {
        let value = at + 3..at + 3 + usize::from(u16::from_be_bytes([high, low]));
        at = match tag {
            1..=4 | 8 => value.start,
            _ => value.end,
        };
        if matches!(tag, 7 | 17) {
            found.push(value);
        }
    }
    found
}

/// The place of the field that a text is the value of.
fn place_of(text: &Range<usize>) -> u32 {
    u32::try_from(text.start - 3).expect("the file is short")
}

#[test]
fn a_mask_has_an_x_for_each_byte_of_a_text_but_newlines() {
    assert_eq!(mask_of(&original()), masked());
    assert_eq!(mask_of(b""), b"");
    let each: Vec<u8> = (0..128).collect();
    let mut right = [b'x'; 128];
    right[usize::from(b'\n')] = b'\n';
    assert_eq!(mask_of(&text(each)), text(right));
}

#[test]
fn a_mask_fits_in_the_length_of_its_file_and_in_no_less() {
    let (file, right) = (original(), masked());
    for room in 0..file.len() + 20 {
        let mut lent = vec![LENT; room];
        if room < file.len() {
            assert_eq!(mask_file(&file, &mut lent), refused(10, file.len()));
            assert_eq!(lent, vec![LENT; room]);
        } else {
            assert_eq!(mask_file(&file, &mut lent), Ok(file.len()));
            assert_eq!(lent[..file.len()], right);
            assert!(lent[file.len()..].iter().all(|byte| *byte == LENT));
        }
    }
}

#[test]
fn a_mask_is_a_file_and_its_own_mask() {
    assert_eq!(check_file(&masked()), Ok(0));
    assert_eq!(mask_of(&masked()), masked());
    let pair = [masked(), masked()];
    for text in texts(&pair[0]) {
        assert_eq!(
            Pair::new(&pair[0], &pair[1]).check(place_of(&text)),
            Ok(text.len())
        );
    }
}

#[test]
fn a_mask_prints_the_same_lines() {
    for width in [0, 5, 10, 20, 80] {
        let mut pair = [original(), masked()];
        let [broken, right] = pair.each_mut().map(|file| layout_file(file, width));
        assert_eq!(broken, right);
        assert_eq!(mask_of(&pair[0]), pair[1]);
        let [page, right] = pair.map(|file| {
            let mut page = Vec::new();
            append_plain_page(&file, &mut page).expect("the file is accepted");
            page.split(|byte| *byte == b'\n')
                .map(<[u8]>::len)
                .collect::<Vec<_>>()
        });
        assert_eq!(page, right);
    }
}

#[test]
fn each_text_is_a_part_of_the_file_that_the_reader_may_see() {
    let (original, mask) = (original(), masked());
    let pair = Pair::new(&original, &mask);
    assert_eq!(texts(&original).len(), 18);
    for text in texts(&original) {
        let place = place_of(&text);
        assert_eq!(pair.check(place), Ok(text.len()));
        for (names, file) in [(true, &original), (false, &mask)] {
            let part = pair.text(place, names);
            assert_eq!(part.as_ptr_range(), file[text.clone()].as_ptr_range());
        }
    }
}

#[test]
fn the_texts_of_a_call() {
    let entries = ["a", "b"].map(text);
    let call = [text("f("), comma_separated(&entries), text(")")].concat();
    let mask = mask_of(&call);
    let pair = Pair::new(&call, &mask);
    for (place, name) in [
        (3, "f("),
        (17, "a"),
        (24, ","),
        (37, "b"),
        (41, ","),
        (48, ")"),
    ] {
        assert_eq!(pair.check(place), Ok(name.len()));
        assert_eq!(pair.text(place, true), name.as_bytes());
        assert_eq!(pair.text(place, false), b"x".repeat(name.len()));
    }
    let copy = pair;
    assert_eq!(copy.text(3, true), pair.text(3, true));
}

#[test]
fn an_empty_text_is_accepted() {
    for (file, place) in [(text(""), 3), (field(7, b""), 0), (styled(Vec::new()), 18)] {
        let pair = Pair::new(&file, &file);
        assert_eq!(pair.check(place), Ok(0));
        assert_eq!(
            [true, false].map(|names| pair.text(place, names)),
            [b"", b""]
        );
    }
}

#[test]
fn where_no_text_begins_13_has_the_place() {
    let (original, mask) = (original(), masked());
    let pair = Pair::new(&original, &mask);
    let places: Vec<u32> = texts(&original).iter().map(place_of).collect();
    let past = original.len() as u32 + 10;
    for place in (0..past).chain([65_536, u32::MAX - 2, u32::MAX]) {
        if !places.contains(&place) {
            assert_eq!(pair.check(place), refused(13, place as usize));
            assert_eq!(
                [true, false].map(|names| pair.text(place, names)),
                [b"", b""]
            );
        }
    }
    assert_eq!(Pair::new(b"", b"").check(0), refused(13, 0));
}

/// Not the mask: 12 comes whether or not a text begins at the place, and the text is empty.
fn is_no_mask(original: &[u8], other: &[u8], at: usize) {
    let pair = Pair::new(original, other);
    for place in [3, 4, u32::MAX] {
        assert_eq!(pair.check(place), refused(12, at));
        assert_eq!(
            [true, false].map(|names| pair.text(place, names)),
            [b"", b""]
        );
    }
}

#[test]
fn a_byte_of_a_text_that_is_not_the_masks_is_refused_by_12() {
    let original = original();
    for at in texts(&original).into_iter().flatten() {
        for wrong in [b'y', b'X', b' ', 0, b'\n', b'x'] {
            let mut other = masked();
            if other[at] != wrong {
                other[at] = wrong;
                is_no_mask(&original, &other, at);
            }
        }
    }
    is_no_mask(&original, &original, 6);
}

#[test]
fn the_first_byte_that_differs_is_the_place() {
    let original = original();
    let bytes: Vec<usize> = texts(&original).into_iter().flatten().collect();
    for (index, at) in bytes.iter().enumerate() {
        let mut other = masked();
        for later in &bytes[index..] {
            other[*later] = b'y';
        }
        is_no_mask(&original, &other, *at);
    }
}

#[test]
fn a_byte_outside_of_texts_that_differs_is_refused_by_12() {
    let (file, mask) = (original(), masked());
    let all = texts(&file);
    let in_text = |at: usize| all.iter().any(|text| text.contains(&at));
    let mut tried = 0;
    for at in (0..file.len()).filter(|at| !in_text(*at)) {
        for wrong in [3, 4, b'x', file[at] ^ 1] {
            let mut other = mask.clone();
            other[at] = wrong;
            // most bytes cannot be others in a file that is accepted
            if wrong != mask[at] && check_file(&other).is_ok() {
                is_no_mask(&file, &other, at);
                tried += 1;
            }
        }
    }
    // the tags of blocks, colours, the names of anchors
    assert!(tried > 20, "{tried} files");
}

#[test]
fn a_mask_of_another_length_is_refused_by_12_at_the_shorter_length() {
    let (file, mask) = (original(), masked());
    for more in [text("x"), text(""), field(5, b""), field(7, b"x")] {
        let longer = [&mask[..], &more].concat();
        is_no_mask(&file, &longer, mask.len());
        let longer = [&file[..], &more].concat();
        is_no_mask(&longer, &mask, mask.len());
    }
    is_no_mask(b"", &mask, 0);
    is_no_mask(&file, b"", 0);
    // what differs before the shorter file's end comes first
    is_no_mask(&file, &file[..8], 6);
}

#[test]
fn the_originals_refusal_comes_first_then_the_masks() {
    let [good, mask] = [text("ab"), text("xx")];
    let faulty = [
        (vec![5; MOST_BYTES + 1], refused(1, 0)),
        ([text("a"), vec![1, 0]].concat(), refused(3, 7)),
        ([text("a"), field(8, b"")].concat(), refused(4, 7)),
        (field(5, b"x"), refused(5, 0)),
        (text(b"\xc0\x80"), refused(7, 3)),
        (field(2, &field(18, b"\"")), refused(9, 3)),
    ];
    let other = [text("ab"), field(99, b"")].concat();
    for (file, refusal) in &faulty {
        for place in [3, 4] {
            assert_eq!(Pair::new(file, &mask).check(place), *refusal);
            assert_eq!(Pair::new(file, &other).check(place), *refusal);
            assert_eq!(Pair::new(&good, file).check(place), *refusal);
            assert_eq!(Pair::new(file, file).text(place, true), b"");
        }
    }
    assert_eq!(Pair::new(&other, &faulty[0].0).check(3), refused(4, 8));
}

#[test]
fn the_longest_file() {
    let [long, mask] = ["\u{e9}", "xx"].map(|two| text(two.repeat((MOST_BYTES - 6) / 2)));
    assert_eq!(mask_of(&long), mask);
    let pair = Pair::new(&long, &mask);
    assert_eq!(pair.check(3), Ok(MOST_BYTES - 6));
    assert_eq!(pair.text(3, true), &long[6..]);
    assert_eq!(pair.text(3, false), &mask[6..]);
}

#[test]
fn a_refusal_says_what_it_is() {
    let file = text("ab");
    let refusal = Pair::new(&file, &file).check(3).expect_err("not masked");
    assert_eq!(refusal.number, Refusal::NOT_THE_MASK);
    assert_eq!(
        refusal.to_string(),
        "refused 12 at 6: the second file is not the mask of the first"
    );
    let mask = mask_of(&file);
    let refusal = Pair::new(&file, &mask).check(5).expect_err("no field");
    assert_eq!(refusal.number, Refusal::NO_TEXT);
    assert_eq!(refusal.bytes_needed(), None);
    assert_eq!(refusal.to_string(), "refused 13 at 5: no text begins there");
}
