//! The numbers of refusals have one list, docs/numbers.txt. Every place that
//! names them is held to it: the proved constants and definitions, the words of
//! the desk tool, the C header with its texts, this crate, the second
//! implementation and the table in README.md. Numbers may have gaps.

use std::fs;
use std::path::Path;

use moortinker::Reason;

/// A line of the list.
struct Line {
    number: u8,
    constant: String,
    name: String,
    given_when: String,
}

/// A file of the repository.
fn file(path: &str) -> String {
    let path = Path::new(env!("CARGO_MANIFEST_DIR")).join("..").join(path);
    fs::read_to_string(&path).unwrap_or_else(|why| panic!("{}: {why}", path.display()))
}

fn list() -> Vec<Line> {
    let text = file("docs/numbers.txt");
    let lines = text.lines().filter(|line| !line.starts_with('#'));
    lines.map(line).collect()
}

fn line(text: &str) -> Line {
    let columns: Vec<&str> = text.split(" | ").collect();
    let [number, constant, name, given_when] = columns[..] else {
        panic!("docs/numbers.txt: not four columns: {text}");
    };
    Line {
        number: number_in(number, "docs/numbers.txt"),
        constant: constant.to_string(),
        name: name.to_string(),
        given_when: given_when.to_string(),
    }
}

fn number_in(text: &str, place: &str) -> u8 {
    let number = text.trim().parse();
    number.unwrap_or_else(|_| panic!("{place}: no number: {text}"))
}

/// `OUTPUT_SHORT` as `OutputShort`.
fn joined(constant: &str) -> String {
    let words = constant.split('_');
    let capital = |word: &str| word[..1].to_string() + &word[1..].to_lowercase();
    words.map(capital).collect()
}

/// The pairs that a place has are those of the list, in its order.
fn assert_same<A, B>(place: &str, found: &[(A, B)], due: impl Fn(&Line) -> (A, B))
where
    (A, B): PartialEq + std::fmt::Debug,
{
    let due: Vec<(A, B)> = list().iter().map(due).collect();
    for (found, due) in found.iter().zip(&due) {
        assert_eq!(
            found, due,
            "{place} (left) and docs/numbers.txt (right) differ"
        );
    }
    let (more, fewer) = (found.get(due.len()), due.get(found.len()));
    assert_eq!(more, None, "{place} has one more than docs/numbers.txt");
    assert_eq!(fewer, None, "{place} has one fewer than docs/numbers.txt");
}

/// What stands behind each start: up to a separator, and from there to an end.
fn pairs(text: &str, start: &str, separator: &str, end: &str) -> Vec<(String, String)> {
    let parts = text.split(start).skip(1);
    let pair = |part: &str| {
        let (left, rest) = part.split_once(separator)?;
        let (right, _) = rest.split_once(end)?;
        Some((left.trim().to_string(), right.trim().to_string()))
    };
    parts.filter_map(pair).collect()
}

/// Names with the numbers that stand behind them.
fn numbered(found: Vec<(String, String)>, place: &str) -> Vec<(String, u8)> {
    let pair = |(name, number): (String, String)| (name, number_in(&number, place));
    found.into_iter().map(pair).collect()
}

/// Lines such as `pub const OUTPUT_SHORT: u8 = 1;`, whose constants begin so.
fn constants(path: &str, prefix: &str) -> Vec<(String, u8)> {
    let start = format!("\npub const {prefix}");
    numbered(pairs(&file(path), &start, ": u8 =", ";"), path)
}

/// Name and number, as most places have them.
fn constant_and_number(line: &Line) -> (String, u8) {
    (line.constant.clone(), line.number)
}

#[test]
fn the_list_rises_and_no_name_stands_twice() {
    let list = list();
    let mut last = 0;
    for (at, line) in list.iter().enumerate() {
        assert!(
            last < line.number,
            "docs/numbers.txt: {} does not rise",
            line.number
        );
        last = line.number;
        for other in &list[..at] {
            let same = other.constant == line.constant || other.name == line.name;
            assert!(
                !same,
                "docs/numbers.txt: {} and {} share a name",
                other.number, line.number
            );
        }
    }
}

#[test]
fn the_proved_constants() {
    let path = "crates/refusal/src/lib.rt";
    assert_same(path, &constants(path, ""), constant_and_number);
}

#[test]
fn the_definitions() {
    let path = "crates/refusal/specs/Number.antt";
    let found: Vec<(String, String)> = pairs(&file(path), "abbrev pub ", " : ℕ\n", "\n");
    let due = |line: &Line| {
        let name = line.constant.to_lowercase();
        let equation = format!("{name} = {}", line.number);
        (name, equation)
    };
    assert_same(path, &found, due);
}

#[test]
fn the_words_of_the_desk_tool() {
    let path = "crates/spelling/src/lib.rt";
    let text = file(path);
    let names = text
        .split("let names = b\"")
        .nth(1)
        .and_then(|part| part.split('"').next());
    let names = names.unwrap_or_else(|| panic!("{path}: no list of names"));
    // A line for each number from 0 on, empty where it is not in use.
    let found: Vec<(u8, String)> = (0..)
        .zip(names.lines().map(String::from))
        .filter(|(_, name)| !name.is_empty())
        .collect();
    assert_same(path, &found, |line| (line.number, line.name.clone()));
}

#[test]
fn the_header() {
    let path = "host/include/moortinker.h";
    let text = file(path);
    let numbers = text.split("\n/* ---- ");
    let section = numbers
        .skip(1)
        .find(|section| section.starts_with("Numbers handed back"));
    let section = section.unwrap_or_else(|| panic!("{path}: no section of numbers"));
    let found = numbered(pairs(section, "#define MOOR_", " ", "/*"), path);
    assert_eq!(found[0], ("ACCEPTED".to_string(), 0), "{path}");
    assert_same(path, &found[1..], constant_and_number);
}

#[test]
fn the_texts_of_the_header() {
    let path = "host/include/moortinker.h";
    let text = file(path);
    let function = text.split("\nstatic inline const char *moor_text(").nth(1);
    let body = function.and_then(|rest| rest.split("\n}\n").next());
    let body = body.unwrap_or_else(|| panic!("{path}: no moor_text"));
    let found = pairs(body, "case MOOR_", ": return \"", "\";");
    let accepted = ("ACCEPTED".to_string(), "accepted".to_string());
    assert_eq!(found[0], accepted, "{path}");
    assert_same(path, &found[1..], |line| {
        (line.constant.clone(), line.name.clone())
    });
    assert!(
        body.contains("default: return \"no such number\";"),
        "{path}: no text for other numbers"
    );
}

#[test]
fn the_declarations_of_the_crate() {
    let path = "host/src/sys.rs";
    let found = constants(path, "MOOR_");
    assert_eq!(found[0], ("ACCEPTED".to_string(), 0), "{path}");
    let kinds = found.iter().position(|pair| pair.0 == "BROADCAST");
    let kinds = kinds.unwrap_or_else(|| panic!("{path}: no kinds behind the numbers"));
    assert_same(path, &found[1..kinds], constant_and_number);
}

#[test]
fn the_reasons_of_the_crate() {
    let reasons = Reason::ALL.iter();
    let found: Vec<(String, u8)> = reasons
        .map(|reason| (format!("{reason:?}"), reason.number()))
        .collect();
    assert_same("host/src/refusal.rs", &found, |line| {
        (joined(&line.constant), line.number)
    });
}

#[test]
fn the_second_implementation() {
    let path = "host/second/src/refusal.rs";
    assert_same(path, &constants(path, ""), constant_and_number);
}

#[test]
fn the_table_of_the_readme() {
    let text = file("README.md");
    let table = text.split("| no. | given when |\n|---|---|").nth(1);
    let table = table.expect("README.md: no table with | no. | given when |");
    let rows = table.split("\n\n").next().unwrap_or_default();
    let found = pairs(rows, "\n| ", " | ", " |");
    let numbered = |(number, words): (String, String)| (number_in(&number, "README.md"), words);
    let found: Vec<(u8, String)> = found.into_iter().map(numbered).collect();
    assert_same("README.md", &found, |line| {
        (line.number, line.given_when.clone())
    });
}
