//! Every public contract is one equation of all that the call answers and leaves, and no entry or export
//! asks anything of its caller.
use contracts::{all, contracts, document, root, Contract};

// The public functions that read from a stream, and what they promise all the same: no clause can say what
// a stream gives or takes, and docs/EXCEPTIONS.md says more.
const STREAMS: [(&str, &[&str]); 3] = [
    ("assembly_io::assemble_from", &[]),
    ("image_io::list_from", &[]),
    (
        "reading::read_full",
        &[
            "IfOk result (λ n. n ≤ length room.new)",
            "length room.new ≡ length room.old",
        ],
    ),
];

#[test]
fn every_public_contract_is_an_equation() {
    let all = all();
    assert!(all.len() > 70, "only {} functions were found", all.len());
    let (streams, others): (Vec<_>, Vec<_>) = all.iter().partition(|c| c.has_streams());
    assert_eq!(streams.len(), STREAMS.len());
    for (c, (name, ensures)) in streams.iter().zip(STREAMS) {
        assert_eq!(c.name, name);
        assert_eq!(c.ensures, ensures, "{name}");
        assert!(c.requires.is_empty(), "{name}");
    }
    for c in others {
        assert_eq!(c.flaw(), None, "{}", c.name);
    }
}

// What a host calls, besides the exports.
const ENTRIES: [&str; 18] = [
    "assembler::assemble",
    "machine::step",
    "machine::run",
    "slots::write_slot",
    "slots::read_slot",
    "resume::run_slot",
    "boards::check_start",
    "fuses::check_row",
    "disassembler::text_of_word",
    "disassembler::text_of_half",
    "disassembler::text_of",
    "listing::list",
    "builder::inst_of",
    "chart::chart",
    "decoder::decode",
    "encoder::encode",
    "expander::expand",
    "shortener::shorten",
];

#[test]
fn entries_and_exports_ask_nothing() {
    let all = all();
    let is_export = |c: &Contract| c.name.contains("::phuyurik_");
    let called: Vec<_> = all
        .iter()
        .filter(|c| is_export(c) || ENTRIES.contains(&c.name.as_str()))
        .collect();
    for entry in ENTRIES {
        assert!(called.iter().any(|c| c.name == entry), "{entry} is missing");
    }
    for c in called {
        assert!(c.requires.is_empty(), "{}", c.name);
    }
    let of_c = |c: &&Contract| c.name.starts_with("c_") || c.name.starts_with("phuyurik");
    for c in all.iter().filter(of_c) {
        assert!(is_export(c), "{}", c.name);
    }
}

/// Each export of a static library stands under the contract of the function that it calls, word for
/// word: that of the same name in the one crate `c_..` that has it.
#[test]
fn exports_have_the_contracts_of_what_they_call() {
    let all = all();
    let of = |start: &str| -> Vec<&Contract> {
        all.iter().filter(|c| c.name.starts_with(start)).collect()
    };
    let (exports, called) = (of("phuyurik"), of("c_"));
    assert_eq!((exports.len(), called.len()), (19, 19));
    for export in exports {
        let (_, name) = export.name.split_once("::").expect("its crate");
        let of_that_name = format!("::{name}");
        let same = called.iter().filter(|c| c.name.ends_with(&of_that_name));
        let [one] = same.collect::<Vec<_>>()[..] else {
            panic!("{name} is not in one of the crates c_..");
        };
        let as_export = Contract {
            name: export.name.clone(),
            ..Contract::clone(one)
        };
        assert_eq!(*export, as_export);
    }
}

#[test]
fn what_is_lent_is_read() {
    let methods =
        "impl S {\n    pub fn f(&mut self) -> u8\n        ensures { result ≡ s }\n    {\n";
    assert!(contracts("some", methods)[0].flaw().is_some());
}

#[test]
fn clauses_of_every_form_are_read() {
    let text = "#[derive(Clone)]\npub struct S;\n\npub fn f<R: Read>(\n    input: &mut R,\n    \
                room: &mut [u8],\n) -> io::Result<usize>\n    requires { a }\n    requires some { b }\n    \
                ensures { c }\n    ensures other { d {0} }\n{\n";
    let [f] = &contracts("some", text)[..] else {
        panic!("one function");
    };
    assert_eq!((&*f.name, &*f.generics), ("some::f", "R: Read"));
    assert_eq!((&*f.answer, f.mutable), ("io::Result<usize>", 2));
    assert_eq!(f.lent(), ["input", "room"]);
    assert_eq!(f.requires, ["a", "b"]);
    assert_eq!(f.ensures, ["c", "d {0}"]);
    assert!(f.has_streams());
    assert_eq!(f.flaw(), Some("not one ensures"));
}

#[test]
fn a_function_of_a_trait_promises_its_law() {
    let all = |head: &str, law: &str| {
        let text = format!(
            "{head} {{\n    ghost use C.{{b_of}};\n\n    {law}\n\n    fn from(a: A) -> B {{\n        b(a)\n    }}\n}}\n\n\
             fn f() {{\n"
        );
        contracts("some", &text)
    };
    let of = |law: &str| {
        let [from] = &all("impl From<A> for B", law)[..] else {
            panic!("one function");
        };
        from.clone()
    };
    let law = "ghost from_gives = { λ a r. r ≡ b_of (r_of a) };";
    let from = of(law);
    assert_eq!((&*from.name, &*from.answer), ("some::B::from", "B"));
    assert_eq!(from.ensures, ["result ≡ b_of (r_of a)"]);
    assert_eq!(from.flaw(), None);
    assert_eq!(all("impl<'a> From<A> for B<'a>", law), [from]);
    assert_eq!(all("struct B(u8);\n\nimpl From<A> for B", law), []);
    for other in [
        "",
        "ghost next_gives = { λ a r. r ≡ b_of a };",
        "ghost from_all_gives = { λ a r. r ≡ b_of a };",
        "ghost from_gives = { b_of };",
        "ghost from_gives = { λ a r. b_of a };",
        "ghost from_gives = { λ a r. r ≡ b_of r };",
        "ghost from_gives = { λ a r. r ≡ b_of (r) };",
        "ghost from_gives = { λ a r. r ≡ b_of (f r) };",
    ] {
        assert!(of(other).flaw().is_some(), "{other}");
    }
}

#[test]
fn a_clause_of_several_lines_is_a_flaw() {
    let text = "pub fn f(s: u32) -> u32\n    ensures {\n        result ≡ s\n    }\n{\n";
    assert!(contracts("some", text)[0].flaw().is_some());
}

#[test]
fn the_document_is_that_of_the_sources() {
    let page =
        std::fs::read_to_string(root().join("docs/CONTRACTS.md")).expect("docs/CONTRACTS.md");
    assert!(
        page == document(),
        "docs/CONTRACTS.md is old: make contracts"
    );
}

/// A function `pub fn f(s: u32, m: &mut [u8], k: &[u8])` with this answer and promise.
fn function(answer: &str, ensures: &str) -> Contract {
    let text = format!(
        "pub fn f(s: u32, m: &mut [u8], k: &[u8]){answer}\n    ensures {{ {ensures} }}\n{{\n"
    );
    let mut found = contracts("some", &text);
    assert_eq!(found.len(), 1);
    found.remove(0)
}

#[test]
fn equations_of_everything_pass() {
    let of_both = function(" -> u8", "outcome result m.new ≡ f s m.old k.now");
    assert_eq!(of_both.name, "some::f");
    assert_eq!(of_both.flaw(), None);
    let of_the_buffer = function("", "m.new ≡ f s m.old");
    assert_eq!(of_the_buffer.flaw(), None);
}

#[test]
fn other_forms_are_flaws() {
    let flaws = [
        // the buffer, or the result, is free
        (" -> u8", "result ≡ f s m.old"),
        (" -> u8", "m.new ≡ f s m.old"),
        // a bound and no equation; two equations in one
        (" -> u8", "result ≤ s"),
        (" -> u8", "(outcome result m.new ≡ f s) × (result ≡ s)"),
        // something of the result or of the buffer, not the whole
        (" -> u8", "outcome (low 5 result) m.new ≡ f s"),
        (" -> u8", "outcome result.low m.new ≡ f s"),
        (" -> u8", "outcome result m.new.low ≡ f s"),
        (" -> u8", "outcome result (head m.new) ≡ f s"),
        // the buffer twice, or as it was
        (" -> u8", "outcome result (board m.new m.new) ≡ f s"),
        (" -> u8", "outcome result m.old ≡ f s"),
        // the outcome on the right
        (" -> u8", "outcome result m.new ≡ f s result"),
        (" -> u8", "outcome result m.new ≡ f s result.low"),
        (" -> u8", "outcome result m.new ≡ f m.new"),
        (" -> u8", "outcome result m.new ≡ f [m.new]"),
        // an equation that is only a part: of an or, of a negation
        (" -> u8", "(outcome result m.new ≡ f s) ⊎ Unit {0}"),
        (" -> u8", "outcome result m.new ≡ f s ⊎ (s < 4)"),
        (" -> u8", "outcome result m.new ≡ f s → ⊥"),
        // a buffer at no time
        (" -> u8", "outcome result m.new ≡ f m"),
        (" -> u8", "outcome result m.new ≡ f m.now"),
        (" -> u8", "outcome result m.new ≡ f k"),
        // an unknown predicate
        (" -> u8", "Good result m.new"),
        // a writer that answers what nothing is said of
        (" -> u8", "Appended m.old s m.new"),
    ];
    for (answer, ensures) in flaws {
        assert!(function(answer, ensures).flaw().is_some(), "{ensures}");
    }
}

/// A writer by a cursor, with this promise.
fn writer(ensures: &str) -> Contract {
    let text = format!("pub fn put(out: &mut Cursor, s: u32)\n    ensures {{ {ensures} }}\n{{\n");
    contracts("some", &text).remove(0)
}

#[test]
fn writers_say_what_they_wrote_and_where_it_ends() {
    let whole = writer("Appended out.old (decimal s) out.new");
    assert_eq!(whole.flaw(), None);
    let flaws = [
        "Appended out.old (decimal s) s",
        "Appended out.new (decimal s) out.new",
        "Appended s (decimal s) out.new",
        "Appended out.old (decimal out.new) out.new",
        "Appended out.old out out.new",
        "Appended out.old s out.old ⊎ Appended out.old s out.new",
    ];
    for ensures in flaws {
        assert!(writer(ensures).flaw().is_some(), "{ensures}");
    }
}

#[test]
fn methods_belong_to_their_type_and_lend_it() {
    let text = "impl Cursor<'_> {\n    pub fn put(&mut self, byte: u8)\n        \
                ensures { Appended self.old (byte ∷ []) self.new }\n    {\n    }\n}\n";
    let [put] = &contracts("some", text)[..] else {
        panic!("one method");
    };
    assert_eq!(put.name, "some::Cursor::put");
    assert_eq!(put.lent(), ["self"]);
    assert_eq!(put.flaw(), None);
}
