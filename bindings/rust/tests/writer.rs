//! The writer by its steps: what each writes, where each is allowed, every refusal with its place and their order, lent bytes, and vectors that grow.

mod fields;

use fields::*;
use hazomeny::*;

/// What a buffer is lent filled with.
const LENT: u8 = 0xa5;

type Grown = Writer<Vec<u8>>;
type Said = Result<usize, Refusal>;
type Step = fn(&mut Grown) -> Said;
type LentStep = fn(&mut Writer<&mut [u8]>) -> Said;

fn refused<T>(number: u8, place: usize) -> Result<T, Refusal> {
    Err(Refusal { number, place })
}

/// A new writer that has made these steps.
fn after(steps: &[Step]) -> Grown {
    let mut w = Writer::growing(Vec::new());
    for step in steps {
        step(&mut w).expect("the step is accepted");
    }
    w
}

fn file_of(steps: &[Step]) -> Vec<u8> {
    let file = after(steps).finish().expect("nothing is open");
    assert_eq!(check_file(&file), Ok(0));
    file
}

#[test]
fn nodes_without_an_inside() {
    assert_eq!(file_of(&[]), b"");
    assert_eq!(file_of(&[|w| w.text("ab")]), text("ab"));
    assert_eq!(file_of(&[|w| w.text(b"ab")]), text("ab"));
    assert_eq!(file_of(&[|w| w.text("")]), text(""));
    assert_eq!(file_of(&[|w| w.breaking_only_space()]), field(5, b""));
    assert_eq!(file_of(&[|w| w.force_line_separation()]), field(6, b""));
    assert_eq!(file_of(&[|w| w.if_block_layout(",")]), field(7, b","));
    assert_eq!(file_of(&[|w| w.if_block_layout("")]), field(7, b""));
}

#[test]
fn anchors() {
    let definition = file_of(&[
        |w| w.open_anchor_definition("é"),
        |w| w.text("a"),
        |w| w.text(Style::new().apply("b")),
        |w| w.close_anchor(),
    ]);
    let styled = field(1, &[field(16, b""), field(17, b"b")].concat());
    let inside = [field(18, "é".as_bytes()), text("a"), styled];
    assert_eq!(definition, field(2, &inside.concat()));

    let empty = file_of(&[|w| w.open_anchor_use(""), |w| w.close_anchor()]);
    assert_eq!(empty, field(2, &field(19, b"")));
}

#[test]
fn blocks() {
    let open: [(u8, Step); 2] = [
        (3, |w| w.open_indented_block()),
        (4, |w| w.open_inline_or_indented_block()),
    ];
    for (tag, open) in open {
        let file = file_of(&[
            open,
            |w| w.open_fragment(),
            |w| w.text("a"),
            open,
            |w| w.close_block(),
            |w| w.close_fragment(),
            |w| w.open_fragment(),
            |w| w.close_fragment(),
            |w| w.close_block(),
            |w| w.text("b"),
        ]);
        let first = [text("a"), block(tag, &[])].concat();
        let right = [block(tag, &[first, Vec::new()]), text("b")].concat();
        assert_eq!(file, right);
    }
}

/// The value of the 16 that a style is written as.
fn style_fields(style: Style) -> Vec<u8> {
    let mut w = Writer::growing(Vec::new());
    w.text(style.apply("x")).expect("the style is allowed");
    let file = w.finish().expect("nothing is open");
    let end = file.len() - field(17, b"x").len();
    assert_eq!(file[end..], field(17, b"x"));
    assert_eq!(file[6..end].len(), usize::from(file[5]));
    assert_eq!(file[..5], [1, 0, file.len() as u8 - 3, 16, 0]);
    file[6..end].to_vec()
}

#[test]
fn styles() {
    let colour = Style::new().colour([1, 2, 3]);
    let opacity = |bits: u32| field(33, &bits.to_be_bytes());
    assert_eq!(style_fields(Style::new()), b"");
    assert_eq!(style_fields(Style::default()), b"");
    assert_eq!(style_fields(colour), field(32, &[1, 2, 3]));
    for (said, bits) in [(0.0, 0), (1.0 / 1024.0, 0x3a80_0000), (1.0, 0x3f80_0000)] {
        let right = [field(32, &[1, 2, 3]), opacity(bits)].concat();
        assert_eq!(style_fields(colour.opacity(said)), right);
    }
    assert_eq!(style_fields(Style::new().thickness(-2)), field(34, &[0xfe]));
    assert_eq!(style_fields(Style::new().size(117)), field(35, &[117]));
    assert_eq!(style_fields(Style::new().size(-128)), field(35, &[0x80]));
    assert_eq!(style_fields(Style::new().subscript()), field(36, b""));
    assert_eq!(style_fields(Style::new().superscript()), field(37, b""));
    assert_eq!(style_fields(Style::new().dim()), field(38, b""));
    assert_eq!(style_fields(Style::new().underline()), field(39, b""));

    let all = colour.underline().dim().subscript().size(5);
    let all = all.thickness(4).opacity(0.5);
    let colour = [field(32, &[1, 2, 3]), opacity(0x3f00_0000)].concat();
    let rest = [field(34, &[4]), field(35, &[5]), field(36, b"")].concat();
    let flags = [field(38, b""), field(39, b"")].concat();
    assert_eq!(style_fields(all), [colour, rest, flags].concat());
}

/// `header 0 1 2` or `prefix 0, 1, 2 suffix` of so many entries, begun by the step.
fn joined(begin: &[Step], count: usize, end: Step) -> Vec<u8> {
    let mut w = after(begin);
    for name in ["0", "1", "2"].into_iter().take(count) {
        w.next_entry().expect("a join is open");
        w.text(name).expect("an entry is open");
    }
    end(&mut w).expect("a join is open");
    w.finish().expect("nothing is open")
}

/// `h`, dim.
fn dim_h() -> Vec<u8> {
    field(1, &[field(16, &field(38, b"")), field(17, b"h")].concat())
}

#[test]
fn joins_by_spaces_of_no_entry_to_three() {
    let entries = ["0", "1", "2"].map(text);
    let begun: [(&[Step], Vec<u8>); 3] = [
        (&[|w| w.begin_join_space("h")], text("h")),
        (
            &[|w| w.begin_join_space(Style::new().dim().apply("h"))],
            dim_h(),
        ),
        (
            &[|w| w.breaking_only_space(), |w| w.begin_join_space_behind()],
            field(5, b""),
        ),
    ];
    for count in 0..=3 {
        for (begin, header) in &begun {
            let right = [&header[..], &spaced(&entries[..count])].concat();
            assert_eq!(joined(begin, count, |w| w.end_join_space()), right);
        }
    }
}

#[test]
fn joins_by_commas_of_no_entry_to_three() {
    let entries = ["0", "1", "2"].map(text);
    let begun: [(&[Step], Vec<u8>); 3] = [
        (&[|w| w.begin_join_comma_sep("f(")], text("f(")),
        (
            &[|w| w.begin_join_comma_sep(Style::new().dim().apply("h"))],
            dim_h(),
        ),
        (
            &[|w| w.text("g("), |w| w.begin_join_comma_sep_behind()],
            text("g("),
        ),
    ];
    let ends: [(Step, Vec<u8>); 2] = [
        (|w| w.end_join_comma_sep(")"), text(")")),
        (
            |w| w.end_join_comma_sep(Style::new().dim().apply("h")),
            dim_h(),
        ),
    ];
    for count in 0..=3 {
        for ((begin, prefix), (end, suffix)) in
            begun.iter().flat_map(|b| ends.iter().map(move |e| (b, e)))
        {
            let right = [&prefix[..], &comma_separated(&entries[..count]), suffix].concat();
            assert_eq!(joined(begin, count, *end), right);
        }
    }
}

#[test]
fn the_call_of_document_01() {
    let file = file_of(&[
        |w| w.begin_join_comma_sep("f("),
        |w| w.next_entry(),
        |w| w.text("a"),
        |w| w.next_entry(),
        |w| w.text("b"),
        |w| w.end_join_comma_sep(")"),
    ]);
    let right = b"\x01\0\x05\x11\0\x02f(\x04\0\x22\
        \x08\0\x11\x01\0\x04\x11\0\x01a\x01\0\x04\x11\0\x01,\x05\0\0\
        \x08\0\x0b\x01\0\x04\x11\0\x01b\x07\0\x01,\
        \x01\0\x04\x11\0\x01)";
    assert_eq!(file, right);
}

#[test]
fn entries_may_be_empty_and_hold_joins() {
    let inner = [text("g("), comma_separated(&[text("a")]), text(")")].concat();
    let outer = [text("h"), spaced(&[inner, Vec::new()])].concat();
    let right = [text("f("), comma_separated(&[Vec::new(), outer]), text(")")];
    let file = file_of(&[
        |w| w.begin_join_comma_sep("f("),
        |w| w.next_entry(),
        |w| w.next_entry(),
        |w| w.begin_join_space("h"),
        |w| w.next_entry(),
        |w| w.begin_join_comma_sep("g("),
        |w| w.next_entry(),
        |w| w.text("a"),
        |w| w.end_join_comma_sep(")"),
        |w| w.next_entry(),
        |w| w.end_join_space(),
        |w| w.end_join_comma_sep(")"),
    ]);
    assert_eq!(file, right.concat());
}

/// Every step, finish aside. The number is the step's own.
const STEPS: [Step; 19] = [
    |w| w.text("a"),
    |w| w.breaking_only_space(),
    |w| w.force_line_separation(),
    |w| w.if_block_layout("a"),
    |w| w.open_anchor_definition("a"),
    |w| w.open_anchor_use("a"),
    |w| w.close_anchor(),
    |w| w.open_indented_block(),
    |w| w.open_inline_or_indented_block(),
    |w| w.close_block(),
    |w| w.open_fragment(),
    |w| w.close_fragment(),
    |w| w.begin_join_space("a"),
    |w| w.begin_join_space_behind(),
    |w| w.begin_join_comma_sep("a"),
    |w| w.begin_join_comma_sep_behind(),
    |w| w.next_entry(),
    |w| w.end_join_space(),
    |w| w.end_join_comma_sep("a"),
];

/// What may stand in any fragment, and what may where a node stands before it there.
const NODES: [usize; 10] = [0, 1, 2, 3, 4, 5, 7, 8, 12, 14];
const BEHIND: [usize; 2] = [13, 15];

/// The numbers of the steps that are allowed in a fragment, with or without a node before, and of those that leave it.
fn in_fragment(with_node: bool, leave: &[usize]) -> Vec<usize> {
    let behind: &[usize] = if with_node { &BEHIND } else { &[] };
    [&NODES, behind, leave].concat()
}

/// Places to stand in, by the numbers of the steps that lead there, with the numbers of the steps that are allowed.
type Places = Vec<(Vec<usize>, Vec<usize>)>;

/// The top of the file, anchors, and blocks and joins outside their fragments and entries.
fn outer_places() -> Places {
    let mut places = vec![
        (vec![], in_fragment(false, &[])),
        (vec![4], vec![0, 6]),
        (vec![5, 0], vec![0, 6]),
        (vec![7], vec![9, 10]),
        (vec![8], vec![9, 10]),
        (vec![8, 10, 11], vec![9, 10]),
        (vec![12], vec![16, 17]),
        (vec![14], vec![16, 18]),
    ];
    // a node of any kind, which is none of the fragment that is opened behind it
    for node in [vec![1], vec![0], vec![5, 6], vec![8, 9], vec![14, 16, 18]] {
        places.push((node.clone(), in_fragment(true, &[])));
        places.push(([node, vec![8, 10]].concat(), in_fragment(false, &[11])));
    }
    places
}

/// Fragments and entries: as they are opened, with a node in them, and the next one.
fn inner_places() -> Places {
    let fragments: [(&[usize], &[usize], &[usize]); 4] = [
        (&[7, 10], &[11], &[0, 11, 10]),
        (&[8, 10], &[11], &[0, 11, 10]),
        (&[12, 16], &[16, 17], &[0, 16]),
        (&[14, 16], &[16, 18], &[0, 16]),
    ];
    let each = fragments.iter().flat_map(|(way, leave, next)| {
        [
            (way.to_vec(), in_fragment(false, leave)),
            ([way, &[1][..]].concat(), in_fragment(true, leave)),
            ([*way, *next].concat(), in_fragment(false, leave)),
        ]
    });
    each.collect()
}

#[test]
fn every_step_where_it_is_allowed_and_nowhere_else() {
    for (way, allowed) in [outer_places(), inner_places()].concat() {
        let way_there: Vec<Step> = way.iter().map(|number| STEPS[*number]).collect();
        for (number, step) in STEPS.iter().enumerate() {
            let mut w = after(&way_there);
            let before = w.written();
            let said = step(&mut w);
            match allowed.contains(&number) {
                true => assert_eq!(said, Ok(w.written()), "{number} after {way:?}"),
                false => {
                    assert_eq!(said, refused(11, before), "{number} after {way:?}");
                    assert_eq!(w.written(), before);
                }
            }
        }
    }
}

#[test]
fn only_a_whole_file_is_finished() {
    let ways: [&[usize]; 9] = [
        &[4],
        &[5, 0],
        &[7],
        &[8, 10],
        &[8, 10, 0, 11],
        &[12],
        &[14],
        &[12, 16],
        &[14, 16, 0],
    ];
    for way in ways {
        let steps: Vec<Step> = way.iter().map(|number| STEPS[*number]).collect();
        let place = after(&steps).written();
        assert_eq!(after(&steps).finish(), refused(11, place), "{way:?}");
    }
    let mut room = [LENT; 5];
    let mut w = Writer::new(&mut room);
    assert_eq!(w.open_indented_block(), Ok(3));
    assert_eq!(w.finish(), refused(11, 3));
    assert_eq!(Writer::new(&mut []).finish(), Ok(&mut [][..]));
}

/// A step that has a fault, with the number of the refusal.
fn faults() -> Vec<(u8, Step)> {
    vec![
        (7, |w| w.text(b"\xff")),
        (7, |w| w.if_block_layout(b"a\xc0\x80")),
        (7, |w| w.open_anchor_definition(b"\xed\xa0\x80")),
        (7, |w| w.open_anchor_use(b"\xff\"")),
        (7, |w| w.begin_join_space(b"\xff")),
        (7, |w| w.begin_join_comma_sep(b"\xff")),
        (8, |w| w.text(Style::new().opacity(0.5).apply("a"))),
        (8, |w| {
            w.text(Style::new().colour([0; 3]).opacity(-0.0).apply("a"))
        }),
        (8, |w| {
            w.text(Style::new().colour([0; 3]).opacity(1.01).apply("a"))
        }),
        (8, |w| {
            w.text(Style::new().colour([0; 3]).opacity(f32::NAN).apply("a"))
        }),
        (8, |w| {
            w.text(Style::new().colour([0; 3]).opacity(0.0009).apply("a"))
        }),
        (8, |w| w.text(Style::new().size(118).apply("a"))),
        (8, |w| w.text(Style::new().size(127).apply("a"))),
        (8, |w| {
            w.text(Style::new().subscript().superscript().apply("a"))
        }),
        (8, |w| w.begin_join_space(Style::new().size(118).apply("a"))),
        (8, |w| {
            w.begin_join_comma_sep(Style::new().size(118).apply(b"\xff"))
        }),
        (8, |w| w.text(Style::new().size(118).apply(b"\xff"))),
        (9, |w| w.open_anchor_definition("a\"")),
        (9, |w| w.open_anchor_use("\"")),
    ]
}

#[test]
fn what_a_step_brings_is_refused_by_7_8_and_9() {
    for (number, step) in faults() {
        let mut w = after(&[|w| w.text("before")]);
        let place = w.written();
        assert_eq!(step(&mut w), refused(number, place));
        assert_eq!(w.finish(), Ok(text("before")));
    }
    let mut w = after(&[|w| w.begin_join_comma_sep("f(")]);
    assert_eq!(w.end_join_comma_sep(b"\xff"), refused(7, 11));
    assert_eq!(
        w.end_join_comma_sep(Style::new().size(118).apply(b"\xff")),
        refused(8, 11)
    );
    assert_eq!(w.end_join_comma_sep(")"), Ok(18));
}

#[test]
fn what_is_not_allowed_is_refused_by_11_before_all_else() {
    for (_, step) in faults() {
        assert_eq!(
            step(&mut after(&[|w| w.open_indented_block()])),
            refused(11, 3)
        );
    }
    let mut full = vec![LENT; 3];
    let mut w = Writer::new(&mut full);
    w.open_indented_block().expect("there is room");
    assert_eq!(w.text(&"a".repeat(MOST_BYTES)), refused(11, 3));
}

/// So many blocks, one in the other, of any kind that has one, and a fragment or entry open in the innermost.
fn deep(count: usize) -> Grown {
    let kinds: [[Step; 2]; 3] = [
        [|w| w.open_indented_block(), |w| w.open_fragment()],
        [|w| w.open_inline_or_indented_block(), |w| w.open_fragment()],
        [|w| w.begin_join_space(""), |w| w.next_entry()],
    ];
    let mut w = Writer::growing(Vec::new());
    for [open, inside] in kinds.iter().cycle().take(count) {
        open(&mut w).expect("a block may stand here");
        inside(&mut w).expect("a block is open");
    }
    w
}

#[test]
fn a_block_inside_32_others_is_refused_by_6() {
    let blocks: [Step; 6] = [
        |w| w.open_indented_block(),
        |w| w.open_inline_or_indented_block(),
        |w| w.begin_join_space("a"),
        |w| w.begin_join_comma_sep("a"),
        |w| w.begin_join_space_behind(),
        |w| w.begin_join_comma_sep_behind(),
    ];
    for block in blocks {
        for count in [31, 32] {
            let mut w = deep(count);
            let at = w.text("x").expect("a text has no block");
            let said = block(&mut w);
            assert_eq!(said.is_ok(), count == 31);
            assert!(count == 31 || said == refused(6, at));
        }
    }
    let mut w = deep(32);
    let place = w.written();
    assert_eq!(w.begin_join_space(b"\xff"), refused(7, place));
    assert_eq!(
        w.begin_join_space(&"a".repeat(MOST_BYTES)),
        refused(6, place)
    );
}

#[test]
fn a_file_has_60_000_bytes_and_not_one_more() {
    for (length, right) in [
        (MOST_BYTES - 6, Ok(MOST_BYTES)),
        (MOST_BYTES - 5, refused(1, 0)),
    ] {
        for room in [0, MOST_BYTES, MOST_BYTES + 1] {
            let mut w = Writer::growing(vec![LENT; room]);
            assert_eq!(w.text(&"a".repeat(length)), right);
            let file = w.finish().expect("nothing is open");
            assert_eq!(file.len(), right.unwrap_or(0));
        }
    }
    for length in [65_529, 65_530, 65_535, 65_536, 70_000, 131_072] {
        let long = "a".repeat(length);
        assert_eq!(after(&[]).text(&long), refused(1, 0));
        assert_eq!(after(&[]).open_anchor_use(&long), refused(1, 0));
    }
}

/// An entry of a comma join, with so many bytes left in the file behind it.
fn nearly_full(left: usize) -> Grown {
    let mut w = after(&[|w| w.begin_join_comma_sep("f("), |w| w.next_entry()]);
    let length = MOST_BYTES - left - w.written() - 6;
    assert_eq!(w.text(&"a".repeat(length)), Ok(MOST_BYTES - left));
    w
}

#[test]
fn each_step_that_passes_60_000_is_refused_by_1() {
    // what each adds: a comma, a space and a header; a comma that may show, and a suffix; a header and a name
    let steps: [(usize, Step); 7] = [
        (13, |w| w.next_entry()),
        (10, |w| w.end_join_comma_sep("")),
        (7, |w| w.open_anchor_use("a")),
        (10, |w| w.begin_join_space("a")),
        (3, |w| w.begin_join_space_behind()),
        (3, |w| w.open_indented_block()),
        (3, |w| w.breaking_only_space()),
    ];
    for (added, step) in steps {
        assert_eq!(step(&mut nearly_full(added)), Ok(MOST_BYTES));
        let mut w = nearly_full(added - 1);
        let place = w.written();
        assert_eq!(step(&mut w), refused(1, place));
        assert_eq!(w.written(), place);
    }
}

#[test]
fn one_before_10() {
    let mut room = [LENT; 5];
    let mut w = Writer::new(&mut room);
    assert_eq!(w.text(&"a".repeat(MOST_BYTES)), refused(1, 0));
    assert_eq!(w.text(&"a".repeat(MOST_BYTES - 6)), refused(10, MOST_BYTES));
    assert_eq!(room, [LENT; 5]);
}

/// Every step of the script but its closings writes something.
const SCRIPT: [LentStep; 22] = [
    |w| w.text("a"),
    |w| {
        w.text(
            Style::new()
                .colour([1, 2, 3])
                .opacity(1.0)
                .size(1)
                .apply("b"),
        )
    },
    |w| w.begin_join_comma_sep_behind(),
    |w| w.next_entry(),
    |w| w.next_entry(),
    |w| w.open_anchor_definition("name"),
    |w| w.text("é"),
    |w| w.close_anchor(),
    |w| w.begin_join_space(Style::new().underline().apply("")),
    |w| w.next_entry(),
    |w| w.breaking_only_space(),
    |w| w.next_entry(),
    |w| w.end_join_space(),
    |w| w.end_join_comma_sep(Style::new().dim().apply(")")),
    |w| w.open_indented_block(),
    |w| w.open_fragment(),
    |w| w.force_line_separation(),
    |w| w.if_block_layout(","),
    |w| w.close_fragment(),
    |w| w.open_fragment(),
    |w| w.close_fragment(),
    |w| w.close_block(),
];

/// What is left of a buffer of so many bytes after the front of the script, and what each step said.
fn lent(room: usize, steps: usize) -> (Vec<u8>, Vec<Said>) {
    let mut bytes = vec![LENT; room];
    let mut w = Writer::new(&mut bytes);
    let said = SCRIPT[..steps].iter().map(|step| step(&mut w)).collect();
    (bytes, said)
}

#[test]
fn a_byte_too_few_changes_nothing() {
    let (file, said) = lent(1_000, SCRIPT.len());
    let ends: Vec<usize> = said
        .into_iter()
        .map(|end| end.expect("there is room"))
        .collect();
    for (index, end) in ends.iter().enumerate() {
        let before = index.checked_sub(1).map_or(0, |index| ends[index]);
        let (enough, said) = lent(*end, index + 1);
        assert_eq!(said[index], Ok(*end));
        assert_eq!(enough.len(), *end);
        if *end > before {
            let (untouched, _) = lent(end - 1, index);
            let (bytes, said) = lent(end - 1, index + 1);
            assert_eq!(said[index], refused(10, *end), "step {index}");
            assert_eq!(bytes, untouched, "step {index}");
        }
    }
    let end = ends[SCRIPT.len() - 1];
    assert_eq!(check_file(&file[..end]), Ok(0));
    assert!(file[end..].iter().all(|byte| *byte == LENT));
}

#[test]
fn a_refused_step_may_be_made_again() {
    let mut room = [LENT; 9];
    let mut w = Writer::new(&mut room);
    assert_eq!(w.open_indented_block(), Ok(3));
    assert_eq!(w.open_fragment(), Ok(6));
    for _ in 0..2 {
        assert_eq!(w.text("a"), refused(10, 13));
        assert_eq!(w.written(), 6);
    }
    assert_eq!(w.breaking_only_space(), Ok(9));
    assert_eq!(w.close_fragment(), Ok(9));
    assert_eq!(w.close_block(), Ok(9));
    let right = block(3, &[field(5, b"")]);
    assert_eq!(w.finish().expect("nothing is open"), &right[..]);
    assert_eq!(room[..], right);
}

#[test]
fn a_vector_grows_as_needed_and_holds_the_file_alone() {
    let names: Vec<String> = (0..3_000).map(|number| format!("name {number}")).collect();
    let right: Vec<u8> = names.iter().flat_map(text).collect();
    for room in [0, 1, 7, 50_000, 70_000] {
        let mut w = Writer::growing(vec![LENT; room]);
        for name in &names {
            w.text(name).expect("a vector grows");
        }
        assert_eq!(w.finish().expect("nothing is open"), right);
    }
}

#[test]
fn a_vector_with_room_keeps_its_place() {
    let mut file = vec![LENT; 1_000];
    let start = file.as_ptr();
    for times in [100, 1, 120] {
        let mut w = Writer::growing(file);
        for _ in 0..times {
            w.text("a").expect("a vector grows");
        }
        file = w.finish().expect("nothing is open");
        assert_eq!(file, text("a").repeat(times));
        assert_eq!(file.as_ptr(), start);
    }
}

/// The entry itself, which a caller in C can give any state.
mod c {
    extern "C" {
        pub fn hazomeny_write(
            file: *mut u8,
            room: usize,
            state: *mut [u32; 2],
            step: u8,
            style: *const [u8; 18],
            text: *const u8,
            length: usize,
        ) -> u64;
    }
}

/// One call with a buffer of so many bytes that are lent between others, of which none may change; and nothing may if it is refused.
fn raw(front: &[u8], room: usize, state: [u32; 2], step: u8) -> u64 {
    const GUARD: usize = 64;
    let mut bytes = vec![LENT; GUARD + room + GUARD];
    bytes[GUARD..][..front.len()].copy_from_slice(front);
    let (lent, mut after) = (bytes.clone(), state);
    let text = b"a";
    // SAFETY: so many bytes stand there, and the arrays have the lengths declared.
    let said = unsafe {
        let start = bytes.as_mut_ptr().add(GUARD);
        c::hazomeny_write(
            start,
            room,
            &mut after,
            step,
            &[0; 18],
            text.as_ptr(),
            text.len(),
        )
    };
    let (before, behind) = (&bytes[..GUARD], &bytes[GUARD + room..]);
    assert_eq!((before, behind), (&[LENT; GUARD][..], &[LENT; GUARD][..]));
    if said as u8 != 0 {
        assert_eq!((bytes, after), (lent, state));
    }
    said
}

#[test]
fn a_state_that_no_writer_has_is_answered_by_11() {
    let states = [
        [101, 0],
        [60_001, 0],
        [u32::MAX, 0],
        [0, 1],
        [2, 1],
        [100, 99],
        [100, 101],
        [100, u32::MAX],
        [u32::MAX; 2],
    ];
    for state in states {
        for step in 0..=u8::MAX {
            let place = u64::from(state[0]);
            assert_eq!(
                raw(&[], 100, state, step),
                place << 8 | 11,
                "{state:?} {step}"
            );
        }
    }
    // an entry whose link leads to itself, behind itself, or nowhere, when its join ends
    for link in [0, 8, 9, 50, 0xffff_u16] {
        let [high, low] = link.to_be_bytes();
        for (code, end) in [(32, 17), (64, 18)] {
            let front = [0, 0, 0, 0, 0, 0, 0, code, high, low];
            assert_eq!(raw(&front, 100, [10, 8], end), 10 << 8 | 11);
        }
    }
}

#[test]
fn a_step_that_there_is_not_is_refused_by_11() {
    for step in 20..=u8::MAX {
        assert_eq!(raw(&[], 100, [0, 0], step), 11);
        assert_eq!(raw(&text("a"), 100, [7, 0], step), 7 << 8 | 11);
    }
}

#[test]
fn a_refusal_says_what_it_is() {
    let refusal = after(&[]).close_block().expect_err("no block is open");
    assert_eq!(refusal.number, Refusal::OUT_OF_PLACE);
    assert_eq!(refusal.bytes_needed(), None);
    assert_eq!(
        refusal.to_string(),
        "refused 11 at 0: a step that is not allowed there"
    );
    let short = Writer::new(&mut []).text("").expect_err("there is no room");
    assert_eq!(short.bytes_needed(), Some(6));
    assert_eq!(
        short.to_string(),
        "refused 10 at 6: the buffer needs so many bytes"
    );
}
