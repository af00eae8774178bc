//! Given vectors, by the whole-job calls and the search in a row: texts, calls,
//! and the answers of other implementations. The files in `given` are made by
//! `tools/given_vectors.py`, which says their form; no answer in them is one of
//! ours. Answers and bytes written must be as given, and all other bytes of the
//! output and beside it untouched. The library, where it is linked, and the
//! independent implementation must each do so.

mod driving;
mod whole;

use driving::{ASK_SHEET, READS};
use rivetyellow_host::answer::Answer;
use rivetyellow_host::calls::Calls;
use rivetyellow_host::drive::{Call, Driver, Table, Text, OUTPUT};
use rivetyellow_host::lent::pattern;
use rivetyellow_host::search::{self, Search, NO_EDGE};
use std::collections::BTreeMap;
use std::iter::Peekable;
use std::str::Lines;
use whole::all;

/// Request 3 of the change requests: several callees joined by `+`. Record lines
/// of repeated tests are left out, since request 5 gives them other marks.
#[test]
fn callees() {
    hold(include_str!("given/callees"), 55, 112);
}

/// Request 4: the search in a row ends at the lowest dangerous edge. Of this and
/// of request 5 one case each is left out, which request 6 answers otherwise.
#[test]
fn first_danger() {
    hold(include_str!("given/first_danger"), 17, 117);
}

/// Request 5: probes, and the marks of repeated tests.
#[test]
fn probes() {
    hold(include_str!("given/probes"), 47, 159);
}

/// Request 6: the branch `*`, taken for a word that no other has.
#[test]
fn star() {
    hold(include_str!("given/star"), 45, 128);
}

/// The numbers are those of the cases and of the calls in the file.
fn hold(file: &'static str, case_count: usize, call_count: usize) {
    let cases = cases(file);
    let searches = [Some(search::INDEPENDENT), search::LINKED];
    for (calls, search) in all().zip(searches.into_iter().flatten()) {
        let mut run = 0;
        for case in &cases {
            for given in &case.calls {
                case.hold(&calls, &search, given);
                run += 1;
            }
        }
        let counts = (cases.len(), run);
        assert_eq!(counts, (case_count, call_count), "{}", calls.name);
    }
}

struct Case {
    name: &'static str,
    /// By name; one that is not there is empty.
    texts: BTreeMap<&'static str, Vec<u8>>,
    calls: Vec<Given>,
}

/// A call, its answer and the bytes that it writes.
struct Given {
    call: &'static str,
    /// In the order of their names.
    arguments: Vec<(&'static str, usize)>,
    answer: Answer,
    written: Vec<u8>,
}

// ---- calls

/// How many bytes beside the output are looked at, on either side.
const BESIDE: usize = 64;

impl Case {
    fn text(&self, name: &str) -> &[u8] {
        self.texts.get(name).map_or(&[], Vec::as_slice)
    }

    fn hold(&self, calls: &Calls, search: &Search, given: &Given) {
        let what = format!(
            "{}: {} {} {:?}",
            calls.name, self.name, given.call, given.arguments
        );
        let [old, new, tests, sheet] = ["old", "new", "tests", "sheet"].map(|name| self.text(name));
        let room = given.arguments.iter().find(|(name, _)| *name == "room");
        let room = room.map_or(0, |&(_, room)| room);
        let mut memory: Vec<u8> = (0..BESIDE + room + BESIDE).map(pattern).collect();
        let mut due = memory.clone();
        let out = &mut memory[BESIDE..BESIDE + room];
        let answer = match (given.call, &given.arguments[..]) {
            ("read_old", []) => (calls.read_old)(old),
            ("sheet", [("room", _)]) => (calls.sheet)(old, new, tests, out),
            ("record", &[("lift", test), ("room", _)]) => {
                (calls.record)(old, new, tests, test, out)
            }
            ("check", []) => (calls.check)(old, new, tests, sheet),
            ("write_back", &[("room", _), ("side", side)]) => {
                (calls.program)(old, new, tests, side, out)
            }
            ("probes", [("room", _)]) => (calls.probes)(old, new, tests, out),
            ("first_danger", &[("lift", test)]) => {
                let (row, dangers) = self.read(test);
                Answer::new(0, (search.first_danger)(&row, &dangers) as u32)
            }
            _ => panic!("unknown call: {what}"),
        };
        assert_eq!(answer, given.answer, "{what}");
        let written = BESIDE..BESIDE + given.written.len();
        due[written.clone()].copy_from_slice(&given.written);
        let shown = |memory: &[u8]| String::from_utf8_lossy(&memory[written.clone()]).into_owned();
        assert_eq!(shown(&memory), shown(&due), "{what}");
        assert!(memory == due, "{what}: a byte beside what is written");
    }

    /// A test's row in the lent table, and the edges of the sheet's D lines
    /// laid out like it. Both implementations make table and sheet, and all
    /// that they are lent is compared.
    fn read(&self, test: usize) -> (Vec<u64>, [u64; ROW]) {
        let mut driver = Driver::new();
        for (text, name) in [
            (Text::Old, "old"),
            (Text::New, "new"),
            (Text::Tests, "tests"),
        ] {
            driver.lend_text(text, self.text(name));
        }
        driver.lend(Table::Output, OUTPUT);
        driver.call(Call::Reset);
        for read in READS {
            driver.call(read);
        }
        let sheet = driver.call(ASK_SHEET);
        assert_eq!(driver.difference, None, "{}", self.name);
        assert!(sheet.is_success(), "{}: {sheet}", self.name);
        let word = |at| driver.number(Table::Rows, at).expect("a row of the table");
        let row = (ROW * test..ROW * (test + 1)).map(word).collect();
        (row, dangers(driver.written(sheet.place as usize)))
    }
}

/// Words of a row.
const ROW: usize = 16;

/// The edges of a sheet's D lines.
fn dangers(sheet: &[u8]) -> [u64; ROW] {
    let mut dangers = [0; ROW];
    let sheet = String::from_utf8_lossy(sheet);
    for digits in sheet.lines().filter_map(|line| line.strip_prefix("D,")) {
        let edge = number(digits) as usize;
        dangers[edge / 64] |= 1 << (edge % 64);
    }
    dangers
}

// ---- the form of the files

fn cases(file: &'static str) -> Vec<Case> {
    let mut cases: Vec<Case> = Vec::new();
    let mut lines = file.lines().peekable();
    while let Some(head) = lines.next() {
        let fields: Vec<&str> = head.split(' ').collect();
        if let ["case", name] = fields[..] {
            cases.push(Case {
                name,
                texts: BTreeMap::new(),
                calls: Vec::new(),
            });
            continue;
        }
        let case = cases.last_mut().expect("a case comes first");
        let bytes = bytes(&mut lines);
        match fields[..] {
            ["text", name @ ("old" | "new" | "tests" | "sheet"), length] => {
                assert_eq!(bytes.len(), number(length) as usize, "{}", case.name);
                let twice = case.texts.insert(name, bytes);
                assert_eq!(twice, None, "{}", case.name);
            }
            ["call", call, list, refusal, place] => case.calls.push(Given {
                call,
                arguments: arguments(list),
                answer: Answer::new(number(refusal), place_of(place)),
                written: bytes,
            }),
            _ => panic!("unknown line: {head}"),
        }
    }
    cases
}

fn number(digits: &str) -> u32 {
    digits.parse().expect(digits)
}

fn place_of(field: &str) -> u32 {
    match field {
        "none" => NO_EDGE as u32,
        digits => number(digits),
    }
}

/// Names with numbers, in the order of the names; `-` for none.
fn arguments(list: &'static str) -> Vec<(&'static str, usize)> {
    if list == "-" {
        return Vec::new();
    }
    let argument = |field: &'static str| {
        let (name, digits) = field.split_once('=').expect(field);
        (name, number(digits) as usize)
    };
    let mut arguments: Vec<_> = list.split(',').map(argument).collect();
    arguments.sort_unstable();
    arguments
}

/// What the next lines with `|` stand for. One that ends in `\` has no byte 10,
/// and `\xNN` is the byte NN.
fn bytes(lines: &mut Peekable<Lines>) -> Vec<u8> {
    let mut bytes = Vec::new();
    while let Some(line) = lines.next_if(|line| line.starts_with('|')) {
        let open = line[1..].strip_suffix('\\');
        let mut parts = open.unwrap_or(&line[1..]).split('\\');
        bytes.extend(parts.next().unwrap_or("").bytes());
        for part in parts {
            let (byte, rest) = part.split_at(3);
            let byte = byte.strip_prefix('x').expect(line);
            bytes.push(u8::from_str_radix(byte, 16).expect(line));
            bytes.extend(rest.bytes());
        }
        if open.is_none() {
            bytes.push(10);
        }
    }
    bytes
}
