//! The writer by closures: the same bytes as by steps, and all of a node or nothing.

mod fields;

use fields::*;
use hazomeny::*;

type Grown = Writer<Vec<u8>>;
type Said = Result<usize, Refusal>;
type Node = fn(&mut Grown) -> Said;

fn refused<T>(number: u8, place: usize) -> Result<T, Refusal> {
    Err(Refusal { number, place })
}

/// The file that these nodes make.
fn file_of(nodes: impl FnOnce(&mut Grown) -> Said) -> Vec<u8> {
    let mut w = Writer::growing(Vec::new());
    let length = nodes(&mut w).expect("the nodes are accepted");
    let file = w.finish().expect("nothing is open");
    assert_eq!(file.len(), length);
    assert_eq!(check_file(&file), Ok(0));
    file
}

#[test]
fn anchors() {
    let texts = |w: &mut Grown| {
        w.text("a")?;
        w.text("b")
    };
    let inside = |tag| [field(tag, b"n"), text("a"), text("b")].concat();
    let definition = file_of(|w| w.anchor_definition("n", texts));
    assert_eq!(definition, field(2, &inside(18)));
    assert_eq!(file_of(|w| w.anchor_use("n", texts)), field(2, &inside(19)));
    let empty = file_of(|w| w.anchor_use(String::from("n"), |_| Ok(())));
    assert_eq!(empty, field(2, &field(19, b"n")));
}

#[test]
fn blocks() {
    let fragments = |w: &mut Grown| {
        w.fragment(|w| w.text("a"))?;
        w.fragment(|_| Ok(()))?;
        w.fragment(|w| w.inline_or_indented_block(|w| w.fragment(|w| w.text("b"))))
    };
    let inner = block(4, &[text("b")]);
    let right = |tag| block(tag, &[text("a"), Vec::new(), inner.clone()]);
    assert_eq!(file_of(|w| w.indented_block(fragments)), right(3));
    assert_eq!(file_of(|w| w.inline_or_indented_block(fragments)), right(4));
}

/// Writes a text in an entry of its own for each name.
fn names(entries: &mut Entries<'_, Vec<u8>>, names: &[&str]) -> Result<(), Refusal> {
    for name in names {
        entries.entry(|w| w.text(name))?;
    }
    Ok(())
}

#[test]
fn joins_of_no_entry_to_three() {
    let all = ["0", "1", "2"];
    for count in 0..=3 {
        let some = &all[..count];
        let entries: Vec<Vec<u8>> = some.iter().map(text).collect();
        let spaced = [text("h"), spaced(&entries)].concat();
        let commas = [text("f("), comma_separated(&entries), text(")")].concat();
        let given = file_of(|w| w.join_space("h", |join| names(join, some)));
        let behind = file_of(|w| {
            w.text("h")?;
            w.join_space_behind(|join| names(join, some))
        });
        assert_eq!([given, behind], [spaced.clone(), spaced]);
        let given = file_of(|w| w.join_comma_sep("f(", ")", |join| names(join, some)));
        let behind = file_of(|w| {
            w.text("f(")?;
            w.join_comma_sep_behind(")", |join| names(join, some))
        });
        assert_eq!([given, behind], [commas.clone(), commas]);
    }
}

#[test]
fn a_join_in_a_join() {
    let inner = [text("g("), comma_separated(&[text("a")]), text(")")].concat();
    let entries = [text("b"), [text("h"), spaced(&[inner])].concat()];
    let right = [text("f("), comma_separated(&entries), text(")")].concat();
    let file = file_of(|w| {
        w.join_comma_sep("f(", ")", |f| {
            f.entry(|w| w.text("b"))?;
            f.entry(|w| {
                w.join_space("h", |h| {
                    h.entry(|w| w.join_comma_sep("g(", ")", |g| g.entry(|w| w.text("a"))))
                })
            })
        })
    });
    assert_eq!(file, right);
}

/// A node that is refused, with the refusal, where 7 bytes stand before it.
fn refused_nodes() -> Vec<(Refusal, Node)> {
    let refusal = |number, place| Refusal { number, place };
    vec![
        (refusal(9, 7), |w| w.anchor_use("\"", |w| w.text("a"))),
        (refusal(7, 14), |w| w.anchor_use("a", |w| w.text(b"\xff"))),
        (refusal(11, 14), |w| {
            w.anchor_definition("a", |w| w.breaking_only_space())
        }),
        (refusal(11, 10), |w| w.indented_block(|w| w.text("a"))),
        (refusal(7, 20), |w| {
            w.inline_or_indented_block(|w| {
                w.fragment(|w| {
                    w.text("a")?;
                    w.text(b"\xff")
                })
            })
        }),
        (refusal(8, 7), |w| {
            let faulty = Style::new().subscript().superscript();
            w.join_space(faulty.apply("a"), |_| Ok(()))
        }),
        (refusal(7, 10), |w| {
            w.join_comma_sep_behind(b"\xff", |_| Ok(()))
        }),
        (refusal(7, 20), |w| {
            w.join_comma_sep("a", "b", |join| join.entry(|w| w.text(b"\xff")))
        }),
        // the second entry is refused, after the first was ended
        (refusal(7, 33), |w| {
            w.join_comma_sep_behind("b", |join| {
                join.entry(|w| w.text("a"))?;
                join.entry(|w| w.text(b"\xff"))
            })
        }),
    ]
}

#[test]
fn a_refused_node_is_not_written_at_all() {
    for (index, (refusal, node)) in refused_nodes().into_iter().enumerate() {
        let mut w = Writer::growing(Vec::new());
        w.text("x").expect("a text may stand here");
        let said = w.indented_block(|w| {
            w.fragment(|w| {
                let before = w.text("x")?;
                assert_eq!(before, 20);
                assert!(node(w).is_err(), "node {index}");
                w.text("y")
            })
        });
        let inside = [text("x"), text("y")].concat();
        let right = [text("x"), block(3, &[inside])].concat();
        assert_eq!(said, Ok(right.len()));
        assert_eq!(w.finish(), Ok(right));

        let mut w = Writer::growing(Vec::new());
        w.text("x").expect("a text may stand here");
        assert_eq!(node(&mut w), Err(refusal), "node {index}");
    }
}

#[test]
fn a_node_that_does_not_fit_is_not_written_at_all() {
    let right = [text("a"), text("...")].concat();
    let mut room = vec![0; right.len()];
    let mut w = Writer::new(&mut room);
    assert_eq!(w.text("a"), Ok(7));
    let long = w.join_comma_sep("f(", ")", |join| join.entry(|w| w.text("a")));
    assert_eq!(long, refused(10, 18));
    assert_eq!(w.text("..."), Ok(16));
    assert_eq!(w.finish(), Ok(&mut right.clone()[..]));
}

/// Nodes whose closure leaves what it is the inside of, or leaves something open in it.
fn unbalanced() -> Vec<Node> {
    vec![
        |w| w.anchor_use("a", |w| w.close_anchor()),
        |w| w.indented_block(|w| w.close_block()),
        |w| w.indented_block(|w| w.open_fragment()),
        |w| w.indented_block(|w| w.fragment(|w| w.close_fragment())),
        |w| w.indented_block(|w| w.fragment(|w| w.open_anchor_use("a"))),
        // what is left open is of the kind that will be closed
        |w| {
            w.indented_block(|w| {
                w.fragment(|w| {
                    w.open_indented_block()?;
                    w.open_fragment()
                })
            })
        },
        |w| w.join_space("a", |join| join.entry(|w| w.end_join_space())),
        |w| w.join_comma_sep("a", "b", |join| join.entry(|w| w.end_join_comma_sep("c"))),
        |w| w.join_comma_sep("a", "b", |join| join.entry(|w| w.next_entry())),
        |w| {
            w.join_comma_sep("a", "b", |join| {
                join.entry(|w| {
                    w.begin_join_comma_sep("c")?;
                    w.next_entry()
                })
            })
        },
    ]
}

#[test]
fn a_closure_can_neither_leave_its_field_nor_leave_one_open() {
    for (index, node) in unbalanced().into_iter().enumerate() {
        let mut w = Writer::growing(Vec::new());
        w.open_indented_block().expect("a block may stand here");
        w.open_fragment().expect("a block is open");
        let refusal = node(&mut w).expect_err("the closure is unbalanced");
        assert_eq!(refusal.number, Refusal::OUT_OF_PLACE, "node {index}");
        assert_eq!(w.written(), 6);
        // the steps that were refused inside are allowed again outside
        w.close_fragment().expect("the fragment is open");
        w.close_block().expect("the block is open");
        assert_eq!(w.finish(), Ok(block(3, &[Vec::new()])));
    }
}

/// The inside of a node: these steps, which would leave it, are refused, and then a text is written.
fn stays(w: &mut Grown, leave: &[Node]) -> Said {
    let at = w.written();
    for step in leave {
        assert_eq!(step(w), refused(11, at));
    }
    w.text("x")
}

#[test]
fn no_step_leaves_what_a_closure_is_the_inside_of() {
    let anchor = file_of(|w| w.anchor_use("n", |w| stays(w, &[|w| w.close_anchor()])));
    let right = field(2, &[field(19, b"n"), text("x")].concat());
    assert_eq!(anchor, right);

    let in_block = file_of(|w| {
        w.indented_block(|w| {
            assert_eq!(w.close_block(), refused(11, 3));
            w.fragment(|w| stays(w, &[|w| w.close_fragment()]))
        })
    });
    assert_eq!(in_block, block(3, &[text("x")]));

    let by_spaces: [Node; 2] = [|w| w.end_join_space(), |w| w.next_entry()];
    let file = file_of(|w| w.join_space("h", |join| join.entry(|w| stays(w, &by_spaces))));
    assert_eq!(file, [text("h"), spaced(&[text("x")])].concat());

    let by_commas: [Node; 2] = [|w| w.end_join_comma_sep("y"), |w| w.next_entry()];
    let file = file_of(|w| w.join_comma_sep("h", "t", |join| join.entry(|w| stays(w, &by_commas))));
    let right = [text("h"), comma_separated(&[text("x")]), text("t")].concat();
    assert_eq!(file, right);
}

#[test]
fn steps_and_closures_mix() {
    let file = file_of(|w| {
        w.open_indented_block()?;
        w.fragment(|w| {
            w.open_anchor_use("n")?;
            w.text("a")?;
            w.close_anchor()?;
            w.begin_join_space("h")?;
            w.next_entry()?;
            w.anchor_use("m", |_| Ok(()))?;
            w.next_entry()?;
            w.end_join_space()
        })?;
        w.close_block()
    });
    let anchor = field(2, &[field(19, b"n"), text("a")].concat());
    let entries = [field(2, &field(19, b"m")), Vec::new()];
    let nodes = [anchor, text("h"), spaced(&entries)].concat();
    assert_eq!(file, block(3, &[nodes]));
}

#[test]
fn a_refused_entry_refuses_its_join_whatever_is_answered() {
    let mut w = Writer::growing(Vec::new());
    w.text("f(").expect("a text may stand here");
    let said = w.join_comma_sep_behind(")", |join| {
        join.entry(|w| w.text("a"))?;
        assert_eq!(join.entry(|w| w.text(b"\xff")), refused(7, 34));
        assert_eq!(
            join.entry(|_| -> Said { unreachable!("no entry is begun") }),
            refused(7, 34)
        );
        Ok(())
    });
    assert_eq!(said, refused(7, 34));
    assert_eq!(w.finish(), Ok(text("f(")));
}

#[test]
fn a_closure_may_refuse_by_itself() {
    let mut w = Writer::growing(Vec::new());
    let said = w.indented_block(|w| {
        w.fragment(|w| w.text("a"))?;
        refused::<()>(1, 2)
    });
    assert_eq!(said, refused(1, 2));
    assert_eq!(w.finish(), Ok(Vec::new()));
}
