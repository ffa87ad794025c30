//! The tables of docs/RECORD.md beside the constants of the sources: where each field of the record and of a tick's list
//! begins, and how long its parts are. `DOLJURVEN_CRATES` names another folder of crates than the project's.

use std::collections::BTreeMap;
use std::path::{Path, PathBuf};
use std::{env, fs};

/// A section of the document, and the crates whose constants it names, the nearest first.
struct Section {
    heading: &'static str,
    crates: &'static [&'static str],
}

const NETWORK: &[&str] = &["net_rules", "module_rules"];
const STATION: &[&str] = &["module_rules"];
const INOUT: &[&str] = &["inout_slot_rules", "module_rules"];
const SERVO: &[&str] = &["servo_slot_rules", "module_rules"];
const STEPPER: &[&str] = &["stepper_slot_rules", "module_rules"];
const SAMPLE: &[&str] = &["module_rules", "servo_slot_rules"];

const SECTIONS: [Section; 11] = [
    Section { heading: "# The lent network record", crates: NETWORK },
    Section { heading: "## Receiver and slots", crates: NETWORK },
    Section { heading: "## Every slot", crates: STATION },
    Section { heading: "## Slot of an I/O module (type 2)", crates: INOUT },
    Section { heading: "## Slot of a servo (type 0)", crates: SERVO },
    Section { heading: "## Slot of a step-motor module (type 3)", crates: STEPPER },
    Section { heading: "## A sample in a tick's list", crates: SAMPLE },
    Section { heading: "## The list for refusal 16", crates: NETWORK },
    Section { heading: "### Lines of an I/O slot", crates: INOUT },
    Section { heading: "### Lines of a servo's slot", crates: SERVO },
    Section { heading: "### Lines of a step-motor module's slot", crates: STEPPER },
];

/// The sections that have a table of bytes, and where its first row begins and its last one ends.
const TABLES: [(usize, &str, &str); 6] = [
    (1, "0", "NET_LEN"),
    (2, "0", "OWN_AT"),
    (3, "OWN_AT", "SLOT_LEN"),
    (4, "OWN_AT", "SLOT_LEN"),
    (5, "OWN_AT", "SLOT_LEN"),
    (6, "0", "SAMPLE_LEN"),
];

fn project() -> PathBuf {
    Path::new(env!("CARGO_MANIFEST_DIR")).join("..")
}

fn text(path: PathBuf) -> String {
    fs::read_to_string(&path).unwrap_or_else(|told| panic!("{}: {told}", path.display()))
}

/// The constants of each crate, as the expressions that stand in its source.
struct Sources(BTreeMap<&'static str, BTreeMap<String, String>>);

impl Sources {
    fn read() -> Sources {
        let crates = env::var_os("DOLJURVEN_CRATES").map_or_else(|| project().join("crates"), PathBuf::from);
        let names = ["net_rules", "module_rules", "inout_slot_rules", "servo_slot_rules", "stepper_slot_rules"];
        let of = |name| (name, constants(&text(crates.join(name).join("src/lib.rt"))));
        Sources(names.into_iter().map(of).collect())
    }

    /// The crate of these that has the constant, and its expression there.
    fn find(&self, crates: &[&'static str], name: &str) -> Option<(&'static str, &str)> {
        crates.iter().find_map(|owner| Some((*owner, self.0[owner].get(name)?.as_str())))
    }

    fn number(&self, crates: &[&'static str], word: &str) -> i64 {
        if let Ok(number) = word.replace('_', "").parse() {
            return number;
        }
        let (crates, name) = match word.split_once("::") {
            Some((owner, name)) => (self.0.keys().copied().filter(|known| *known == owner).collect(), name),
            None => (crates.to_vec(), word),
        };
        let (owner, expression) =
            self.find(&crates, name).unwrap_or_else(|| panic!("no constant {word} in {crates:?}"));
        self.value(&[owner], expression)
    }

    /// Sums, differences and products, products first.
    fn value(&self, crates: &[&'static str], expression: &str) -> i64 {
        let mut words = expression.split_whitespace();
        let mut next = || words.next();
        let (mut sum, mut sign) = (0, 1);
        let mut product = self.number(crates, next().expect("a number or a name"));
        while let Some(operator) = next() {
            let right = self.number(crates, next().expect("something behind the operator"));
            match operator {
                "*" => product *= right,
                "+" | "-" => {
                    sum += sign * product;
                    sign = if operator == "+" { 1 } else { -1 };
                    product = right;
                }
                _ => panic!("{operator} in {expression}"),
            }
        }
        sum + sign * product
    }
}

/// Each `pub const NAME: usize = EXPRESSION;`.
fn constants(source: &str) -> BTreeMap<String, String> {
    let items = source.split("pub const ").skip(1);
    let parts = items.filter_map(|item| item.split_once(';')?.0.split_once(": usize = "));
    parts.map(|(name, expression)| (name.to_string(), expression.to_string())).collect()
}

fn document() -> String {
    text(project().join("docs/RECORD.md"))
}

/// The lines below a section's heading, up to the next heading.
fn lines<'a>(document: &'a str, section: &Section) -> Vec<&'a str> {
    let mut lines = document.lines().skip_while(|line| *line != section.heading);
    assert!(lines.next().is_some(), "no section {:?}", section.heading);
    lines.take_while(|line| !line.starts_with('#')).collect()
}

struct Row {
    first: i64,
    end: i64,
    constant: String,
}

/// One number or several, `8..9` or `10, 11, 12`: where the first begins and where the last ends.
fn bytes(cell: &str) -> (i64, i64) {
    let number = |word: &str| word.parse::<i64>().unwrap_or_else(|_| panic!("{word:?} in {cell:?}"));
    let mut ranges = cell.split(", ").map(|range| {
        let (first, last) = range.split_once("..").unwrap_or((range, range));
        (number(first), number(last) + 1)
    });
    let begin = ranges.next().expect("a range");
    let whole = ranges.fold(begin, |so_far, range| {
        assert_eq!(so_far.1, range.0, "a gap within {cell:?}");
        (so_far.0, range.1)
    });
    assert!(whole.0 < whole.1, "nothing in {cell:?}");
    whole
}

fn rows(document: &str, section: &Section) -> Vec<Row> {
    let cells = |line: &str| line.trim_matches('|').split('|').map(|cell| cell.trim().to_string()).collect::<Vec<_>>();
    let table = lines(document, section).into_iter().filter(|line| line.starts_with('|')).map(cells);
    let rows = table.skip(2).map(|cells| {
        assert_eq!(cells.len(), 3, "{cells:?}");
        let (first, end) = bytes(&cells[0]);
        Row { first, end, constant: cells[1].trim_matches('`').to_string() }
    });
    rows.collect()
}

#[test]
fn every_row_begins_where_its_constant_says() {
    let (sources, document) = (Sources::read(), document());
    for (at, ..) in TABLES {
        for row in rows(&document, &SECTIONS[at]) {
            assert_eq!(row.first, sources.value(SECTIONS[at].crates, &row.constant), "{}", row.constant);
        }
    }
}

#[test]
fn rows_follow_one_another() {
    let (sources, document) = (Sources::read(), document());
    for (at, first, end) in TABLES {
        let Section { heading, crates } = SECTIONS[at];
        let mut reached = sources.value(crates, first);
        for row in rows(&document, &SECTIONS[at]) {
            assert_eq!(row.first, reached, "{heading}: {}", row.constant);
            reached = row.end;
        }
        assert_eq!(reached, sources.value(crates, end), "{heading}: its end");
    }
}

/// A place that has no row itself is that of a part, and the constant of its first field is the same and has one.
#[test]
fn every_place_is_in_a_row() {
    let (sources, document) = (Sources::read(), document());
    let mut in_rows = Vec::new();
    for (at, ..) in TABLES {
        let own = SECTIONS[at].crates[0];
        in_rows.extend(rows(&document, &SECTIONS[at]).into_iter().map(|row| (own, row.constant)));
    }
    let firsts: Vec<(&str, &str)> = in_rows
        .iter()
        .filter_map(|(own, name)| {
            let expression = sources.0[own].get(name)?.as_str();
            Some(expression.split_once("::").unwrap_or((own, expression)))
        })
        .collect();
    for (own, constants) in &sources.0 {
        let places: Vec<&String> = constants.keys().filter(|name| name.ends_with("_AT")).collect();
        assert!(places.len() >= 6, "only {} places in {own}", places.len());
        for name in places {
            let stands = in_rows.iter().any(|(owner, constant)| owner == own && constant == name);
            assert!(stands || firsts.contains(&(*own, name)), "{own}::{name} is in no row");
        }
    }
}

fn defined(header: &str, name: &str) -> i64 {
    let value = header.lines().find_map(|line| line.strip_prefix(&format!("#define {name} ")));
    let number = value.and_then(|value| value.split('u').next()).and_then(|number| number.trim().parse().ok());
    number.unwrap_or_else(|| panic!("the header has no number {name}"))
}

#[test]
fn header_has_the_lengths_of_the_sources() {
    let (sources, header) = (Sources::read(), text(project().join("include/doljurven.h")));
    for (name, constant) in [
        ("NMC_NET_LEN", "NET_LEN"),
        ("NMC_ROOM_LEN", "ROOM_LEN"),
        ("NMC_MOST_MODULES", "CHAIN_MOST"),
        ("NMC_REPLY_LEN", "REPLY_LEN"),
        ("NMC_SAMPLE_LEN", "SAMPLE_LEN"),
        ("NMC_BUFFER_LEN", "BUFFER_MOST"),
        ("NMC_BUFFER_ROOM_LEN", "BUFFER_ROOM_LEN"),
    ] {
        assert_eq!(defined(&header, name), sources.value(NETWORK, constant), "{name}");
    }
}

/// What stands in backquotes in capital letters: a constant, or a sum that begins with one. Behind it the number that
/// brackets give it, if they do.
fn named(line: &str) -> Vec<(&str, Option<i64>)> {
    let parts: Vec<&str> = line.split('`').collect();
    let quoted = (1..parts.len()).step_by(2).map(|i| (parts[i], parts.get(i + 1).copied().unwrap_or("")));
    let is_constant = |word: &str| {
        let name = word.split(' ').next().unwrap_or("");
        name.contains('_') && name.chars().all(|c| c == '_' || c.is_ascii_uppercase() || c.is_ascii_digit())
    };
    let said = |behind: &str| behind.strip_prefix(" (")?.split_once(')')?.0.replace(',', "").parse().ok();
    quoted.filter(|(word, _)| is_constant(word)).map(|(word, behind)| (word, said(behind))).collect()
}

#[test]
fn every_constant_of_the_document_is_there_with_its_number() {
    let (sources, document, header) = (Sources::read(), document(), text(project().join("include/doljurven.h")));
    let headings = document.lines().filter(|line| line.starts_with('#'));
    assert!(headings.eq(SECTIONS.iter().map(|section| section.heading)), "sections that this test does not know");
    let mut with_number = Vec::new();
    for section in &SECTIONS {
        for (word, said) in lines(&document, section).into_iter().flat_map(named) {
            let value =
                if word.starts_with("NMC_") { defined(&header, word) } else { sources.value(section.crates, word) };
            if let Some(said) = said {
                assert_eq!(said, value, "{word} in {:?}", section.heading);
                with_number.push(word);
            }
        }
    }
    for name in ["NET_LEN", "CHAIN_MOST", "SLOT_LEN", "OWN_AT", "RECEIVER_LEN", "SAMPLE_LEN"] {
        assert!(with_number.contains(&name), "the document does not say how much {name} is");
    }
}
