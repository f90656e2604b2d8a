//! The C header's numbers and words are the wrapper's, and its calls those that are declared in Rust.
use phuyurik::{
    archive_version, Operation, Refusal, Stop, Words, LINE, LONGEST_MEMORY, RECORD, ROOM, ROW,
    VERSION, WORDS,
};
use std::collections::BTreeMap;

const HEADER: &str = include_str!("../../include/phuyurik.h");
const DECLARED: &str = include_str!("../sys/src/lib.rs");

/// What stands in the header between these two.
fn between(start: &str, end: &str) -> &'static str {
    let (_, rest) = HEADER.split_once(start).expect("the start is there");
    rest.split_once(end).expect("there is an end").0
}

/// The names and numbers of an enum of the header.
fn listed(name: &str) -> Vec<(String, u32)> {
    let body = between(&format!("enum {name} {{"), "}");
    let lines = body.lines().filter_map(|line| line.split_once(" = "));
    lines
        .map(|(name, rest)| {
            let digits = rest.split([',', ' ']).next().expect("a number");
            (name.trim().to_string(), digits.parse().expect("a number"))
        })
        .collect()
}

/// The strings of the table in a function of the header, in order, and the one for other numbers.
fn told(function: &str) -> (Vec<&'static str>, &'static str) {
    let body = between(&format!(" *{function}("), "\n}");
    let (table, rest) = body.split_once("};").expect("the table has an end");
    let strings = |text: &'static str| text.split('"').skip(1).step_by(2);
    let other = strings(rest).next().expect("words for other numbers");
    (strings(table).collect(), other)
}

/// The header's name of a case: `MemoryTooLong` is `PHUYURIK_MEMORY_TOO_LONG`.
fn in_c(case: String) -> String {
    let mut name = "PHUYURIK".to_string();
    for letter in case.chars() {
        if letter.is_uppercase() {
            name.push('_');
        }
        name.push(letter.to_ascii_uppercase());
    }
    name
}

/// The value of a macro of the header that is one number.
fn defined(name: &str) -> Option<usize> {
    let name = format!("PHUYURIK_{name}");
    HEADER.lines().find_map(|line| {
        let mut words = line.split_whitespace();
        let is_it = words.next() == Some("#define") && words.next() == Some(&name);
        is_it.then(|| words.next()?.parse().ok()).flatten()
    })
}

/// Names with their parameters, by name.
type Calls = BTreeMap<String, Vec<String>>;

/// The calls that begin so in a text, each up to its end; `name` finds the name of a parameter.
fn calls_in(text: &str, start: &str, end: &str, name: fn(&str) -> Option<&str>) -> Calls {
    let call = |rest: &str| {
        let (head, _) = rest.split_once(end).expect("a call has an end");
        let (call, parameters) = head.split_once('(').expect("parameters");
        let names = parameters.split(',').filter_map(name);
        (call.to_string(), names.map(str::to_string).collect())
    };
    text.split(start).skip(1).map(call).collect()
}

/// Of `uint8_t *mem` it is the last word.
fn name_in_c(parameter: &str) -> Option<&str> {
    let words = |letter: char| letter.is_whitespace() || letter == '*';
    parameter
        .rsplit(words)
        .next()
        .filter(|name| *name != "void")
}

/// Of `mem: *mut u8` it is what stands before the colon; after the last comma there is none.
fn name_in_rust(parameter: &str) -> Option<&str> {
    parameter.split_once(':').map(|(name, _)| name.trim())
}

/// Every call of the header is declared, with the same parameters in the same order, and no other.
#[test]
fn calls() {
    let mut header = calls_in(HEADER, "\nphuyurik_refusal ", ");", name_in_c);
    header.extend(calls_in(HEADER, "\nuint32_t ", ");", name_in_c));
    let declared = calls_in(DECLARED, "    pub fn ", ") -> u32;", name_in_rust);
    assert_eq!(header, declared);
    let masked = declared.keys().filter(|name| name.ends_with("_masked"));
    assert_eq!((masked.count(), declared.len()), (3, 19));
}

#[test]
fn refusals() {
    let mut wrapper = vec![("PHUYURIK_ACCEPTED".to_string(), 0)];
    for refusal in Refusal::ALL {
        wrapper.push((in_c(format!("{refusal:?}")), refusal.number()));
    }
    assert_eq!(listed("phuyurik_refusal"), wrapper);
}

#[test]
fn stops() {
    let named = |stop: &Stop| (in_c(format!("{stop:?}")), u32::from(stop.number()));
    let wrapper: Vec<_> = Stop::ALL.iter().map(named).collect();
    assert_eq!(listed("phuyurik_stop"), wrapper);
}

/// The header lists the stops that have an address, and no other.
#[test]
fn addresses() {
    let body = between(" phuyurik_stop_has_address(", "\n}");
    let words = body.split(|letter: char| !letter.is_alphanumeric() && letter != '_');
    let header: Vec<_> = words.filter(|word| word.starts_with("PHUYURIK_")).collect();
    let with = Stop::ALL.iter().filter(|stop| stop.has_address());
    let wrapper: Vec<_> = with.map(|stop| in_c(format!("{stop:?}"))).collect();
    assert_eq!(header, wrapper);
}

#[test]
fn operations() {
    let named = |one: &Operation| (in_c(format!("Op{one:?}")), one.number());
    let wrapper: Vec<_> = Operation::ALL.iter().map(named).collect();
    assert_eq!(listed("phuyurik_operation"), wrapper);
    let in_words = |one: &Operation| format!("PHUYURIK_OP_{}", one.words().to_uppercase());
    let words: Vec<_> = Operation::ALL.iter().map(in_words).collect();
    assert!(wrapper.iter().map(|(name, _)| name).eq(&words));
}

#[test]
fn words() {
    let stops: Vec<_> = Stop::ALL.iter().map(|stop| stop.words()).collect();
    let other = "no stop has this number";
    assert_eq!(told("phuyurik_stop_text"), (stops, other));
    let mut refusals = vec!["accepted"];
    refusals.extend(Refusal::ALL.iter().map(|refusal| refusal.words()));
    let other = "no refusal has this number";
    assert_eq!(told("phuyurik_refusal_text"), (refusals, other));
}

#[test]
fn sizes() {
    let sizes = [
        ("MEMORY_MAX", LONGEST_MEMORY),
        ("ROW_SIZE", ROW),
        ("WORDS", WORDS),
        ("RECORD_SIZE", RECORD),
        ("ROOM_MIN", ROOM),
        ("LINE_MAX", LINE),
    ];
    for (name, size) in sizes {
        assert_eq!(defined(name), Some(size), "{name}");
    }
    assert!(HEADER.contains("\n#define PHUYURIK_ALL_WORDS UINT64_MAX\n"));
    assert_eq!(Words::ALL.mask(), u64::MAX);
    assert_eq!(size_of::<phuyurik::State>(), RECORD);
    assert_eq!(size_of::<phuyurik::Instruction>(), 5 * size_of::<u32>());
}

/// The header's, the package's and the archive's.
#[test]
fn versions() {
    let part = |name: &str| defined(&format!("VERSION_{name}")).expect("it is there");
    let (major, minor, patch) = (part("MAJOR"), part("MINOR"), part("PATCH"));
    let dotted = format!("{major}.{minor}.{patch}");
    assert_eq!(dotted, env!("CARGO_PKG_VERSION"));
    let number = major * 65_536 + minor * 256 + patch;
    assert_eq!(VERSION as usize, number);
    assert_eq!(archive_version(), VERSION);
}
