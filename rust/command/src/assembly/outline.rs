//! The lines of an assembly text as trees: what stands further to the right
//! belongs to the line above.

use crate::text::{cut, lines, Line, Place};

/// A design of 32,768 bytes has fewer lines, as all but guard and body stand
/// for bytes, and it is less deep. A text with more is not taken apart.
const LONGEST: usize = 65_536;
const DEEPEST: usize = 64;

type Done<T> = Result<T, String>;

/// A line's words, and the lines that belong to it.
#[derive(Debug, PartialEq, Eq)]
pub struct Node<'a> {
    pub line: Line<'a>,
    pub place: Place,
    pub code: &'a str,
    pub words: Vec<&'a str>,
    pub parts: Vec<Node<'a>>,
}

/// A line, and its code without an offset in front.
#[derive(Clone, Copy)]
struct Placed<'a> {
    line: Line<'a>,
    place: Place,
    code: &'a str,
}

pub fn outline(text: &str) -> Done<Vec<Node<'_>>> {
    let lines = placed_lines(text).take(LONGEST + 1).map(indented);
    let lines: Vec<Placed> = lines.collect::<Done<_>>()?;
    match lines.get(LONGEST) {
        Some(line) => {
            let what = format!("over 65,536 lines: {}", cut(line.code));
            Err(line.place.fault(what))
        }
        None => nodes(&lines, None, DEEPEST),
    }
}

/// The words of the first line, and whether it is one that only `show` prints.
pub fn first_words(text: &str) -> (bool, Vec<&str>) {
    let first = lines(text).map(placed).next();
    first.map_or((false, vec![]), |line| {
        (is_heading(&line), words(line.code))
    })
}

fn placed_lines(text: &str) -> impl Iterator<Item = Placed<'_>> {
    lines(text).map(placed).filter(|line| !is_heading(line))
}

/// The two lines that `show` begins with say nothing that is not in others.
fn is_heading(line: &Placed) -> bool {
    line.code.starts_with("bytes:") || line.code == "offset"
}

/// An offset in front is not looked at, as it changes with every edit.
fn placed(line: Line<'_>) -> Placed<'_> {
    let whole = line.code.trim();
    let code = match whole.split_once(char::is_whitespace) {
        Some((offset, code)) if offset.parse::<usize>().is_ok() => code.trim_start(),
        _ => whole,
    };
    Placed {
        line,
        place: line.place(code),
        code,
    }
}

/// How wide a tab is depends on who looks at it, so a text with one would not
/// be what it looks like.
fn indented(line: Placed<'_>) -> Done<Placed<'_>> {
    let letters = line.line.code.chars().take(line.place.column - 1);
    let odd = letters
        .zip(1..)
        .find(|(letter, _)| letter.is_whitespace() && *letter != ' ');
    let Some((letter, column)) = odd else {
        return Ok(line);
    };
    let what = match letter {
        '\t' => "a tab in the indentation: use spaces",
        _ => "white space that is no space in the indentation: use spaces",
    };
    Err(Place {
        column,
        ..line.place
    }
    .fault(what))
}

fn words(code: &str) -> Vec<&str> {
    let parted = code.split(|letter: char| letter.is_whitespace() || ":,.()".contains(letter));
    parted.filter(|word| !word.is_empty()).collect()
}

/// The lines below one, or those below none.
fn nodes<'a>(
    mut lines: &[Placed<'a>],
    above: Option<&Placed>,
    depth: usize,
) -> Done<Vec<Node<'a>>> {
    let mut all: Vec<Node> = Vec::new();
    while let Some((line, rest)) = lines.split_first() {
        if let Some(elder) = all.first() {
            aligned(line, elder, above)?;
        }
        let column = line.place.column;
        let inside = rest.iter().take_while(|part| part.place.column > column);
        let (parts, after) = rest.split_at(inside.count());
        let Some(left) = depth.checked_sub(1) else {
            let what = format!("over 64 lines deep: {}", cut(line.code));
            return Err(line.place.fault(what));
        };
        all.push(Node {
            line: line.line,
            place: line.place,
            code: line.code,
            words: words(line.code),
            parts: nodes(parts, Some(line), left)?,
        });
        lines = after;
    }
    Ok(all)
}

/// A line that is left of its elder ones was meant to stand elsewhere, and
/// nobody knows where.
fn aligned(line: &Placed, elder: &Node, above: Option<&Placed>) -> Done<()> {
    let column = elder.place.column;
    if line.place.column == column {
        return Ok(());
    }
    Err(line.place.fault(match above {
        Some(above) => format!(
            "this line belongs below line {}, whose other parts begin at column {column}",
            above.place.line
        ),
        None => {
            format!("this line belongs below no other, and such lines begin at column {column}")
        }
    }))
}

#[cfg(test)]
mod tests;
