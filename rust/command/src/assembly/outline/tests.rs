//! Lines and their columns.

use super::*;

fn shape(nodes: &[Node]) -> String {
    let one = |node: &Node| format!("{}({})", node.words.join(" "), shape(&node.parts));
    nodes.iter().map(one).collect()
}

fn shape_of(text: &str) -> Done<String> {
    outline(text).map(|nodes| shape(&nodes))
}

#[track_caller]
fn at_fault(text: &str, fault: &str) {
    assert_eq!(shape_of(text), Err(fault.to_string()), "{text:?}");
}

#[test]
fn further_right_belongs_above() {
    let text = "a\n  b\n    c # d\n\n    e\n  f\ng\n";
    let nodes = outline(text).expect("nodes");
    assert_eq!(shape(&nodes), "a(b(c()e())f())g()");
    let places = [nodes[0].parts[1].place, nodes[1].place];
    assert_eq!(
        places.map(|place| (place.line, place.column)),
        [(6, 3), (7, 1)]
    );
    let ends = text.replace('\n', "\r\n");
    assert_eq!(outline(&ends), Ok(nodes));
}

#[test]
fn offsets_are_left_out() {
    let text = "     0  a\n     6    b\n    12    -7\n          8\n   100  c";
    assert_eq!(shape_of(text), Ok("a(b()-7()8())c()".to_string()));
}

#[test]
fn the_first_words() {
    let text = "# x\n  24  call 0.read 1\nschedule";
    assert_eq!(first_words(text), (false, vec!["call", "0", "read", "1"]));
    assert!(first_words("# x\n3 bytes: 0 rules\noffset").0);
    assert!(first_words("offset\nschedule").0);
    assert_eq!(first_words("# x"), (false, vec![]));
}

#[test]
fn tabs_in_the_indentation() {
    let tab = "a tab in the indentation: use spaces";
    at_fault("a\n  b\n\tc", &format!("line 3, column 1: {tab}"));
    at_fault("a\n  \tb", &format!("line 2, column 3: {tab}"));
    at_fault(
        "     0  a\r\n     6 \t b\r\n",
        &format!("line 2, column 8: {tab}"),
    );
    at_fault("     0\ta", &format!("line 1, column 7: {tab}"));
    at_fault(
        "a\n \u{A0}b",
        "line 2, column 2: white space that is no space in the indentation: use spaces",
    );
}

/// Where nothing follows from its width, a tab may stand.
#[test]
fn tabs_elsewhere() {
    let text = "\t# x\na\tb\t# c\n\t\n  c\t\n#\td\n";
    assert_eq!(shape_of(text), Ok("a b(c())".to_string()));
}

#[test]
fn parts_at_different_columns() {
    let words = "this line belongs below line 2, whose other parts begin at column 7";
    at_fault(
        "a\n  b\n      c\n        d\n    e\n",
        &format!("line 5, column 5: {words}"),
    );
    at_fault(
        "     0  a\n     6  b\n    12      c\n    18     d",
        "line 4, column 12: this line \
              belongs below line 2, whose other parts begin at column 13",
    );
    at_fault(
        "  a\n    b\n c\n",
        "line 3, column 2: this line belongs below no other, \
              and such lines begin at column 3",
    );
    at_fault(
        "     0  a\nb",
        "line 2, column 1: this line belongs below no other, \
              and such lines begin at column 9",
    );
}

/// Parts of different lines need not stand at the same column.
#[test]
fn cousins_at_different_columns() {
    let text = "a\n  b\n   c\n   d\n  e\n        f\n        g\n";
    assert_eq!(shape_of(text), Ok("a(b(c()d())e(f()g()))".to_string()));
}

#[test]
fn a_text_of_any_length_and_depth_gets_an_answer() {
    assert!(outline(&"a\n".repeat(LONGEST)).is_ok());
    let fault = outline(&"a\n".repeat(5_000_000)).expect_err("too long");
    let place = format!("line {}, column 1", LONGEST + 1);
    assert_eq!(fault, format!("{place}: over 65,536 lines: a"));
    let stairs = |deep: usize| {
        (0..deep)
            .map(|at| " ".repeat(at) + "a\n")
            .collect::<String>()
    };
    assert!(outline(&stairs(DEEPEST)).is_ok());
    let fault = outline(&stairs(5000)).expect_err("too deep");
    assert_eq!(fault, "line 65, column 65: over 64 lines deep: a");
}
