//! The public contracts of the crates, read from their sources. A contract that says everything is one
//! equation: on its left a bundle of the result and of each lent buffer as the call leaves it, on its
//! right what a definition says of the input alone. So no two outcomes can meet it.
#![forbid(unsafe_code)]

use std::path::{Path, PathBuf};

/// A public function and what it promises.
#[derive(Clone, Debug, PartialEq, Eq)]
pub struct Contract {
    /// `crate::function`, or `crate::Type::function`.
    pub name: String,
    /// The type parameters and their bounds, as `R: Read, W: Write`.
    pub generics: String,
    pub parameters: Vec<Parameter>,
    /// How often `&mut` stands in the signature.
    pub mutable: usize,
    /// The type of what it answers; empty if it answers nothing.
    pub answer: String,
    pub requires: Vec<String>,
    pub ensures: Vec<String>,
}

#[derive(Clone, Debug, PartialEq, Eq)]
pub struct Parameter {
    pub name: String,
    pub kind: String,
}

/// The root of the repository.
pub fn root() -> PathBuf {
    Path::new(env!("CARGO_MANIFEST_DIR")).join("../..")
}

/// Every public function of every crate, in the order of their names.
pub fn all() -> Vec<Contract> {
    let folder = root().join("crates");
    let entries = std::fs::read_dir(folder).expect("the crates stand in the repository");
    let mut sources: Vec<PathBuf> = entries
        .map(|entry| entry.expect("a crate's folder").path().join("src/lib.rt"))
        .filter(|source| source.exists())
        .collect();
    sources.sort();
    sources.iter().flat_map(|source| read(source)).collect()
}

fn read(source: &Path) -> Vec<Contract> {
    let folder = source.ancestors().nth(2).and_then(Path::file_name);
    let name = folder.expect("a crate's name").to_string_lossy();
    let text = std::fs::read_to_string(source).expect("a crate's source");
    contracts(&name, &text)
}

/// The public functions of one source, and those of a trait that a type has in it.
pub fn contracts(crate_name: &str, text: &str) -> Vec<Contract> {
    let mut found = Vec::new();
    let mut owner = String::new();
    // what a trait's functions promise, by the laws' names, inside `impl TRAIT for TYPE {`
    let mut laws: Option<Vec<(&str, String)>> = None;
    let mut lines = text.lines();
    while let Some(line) = lines.next() {
        if let Some((kind, name)) = impl_of(line) {
            owner = format!("{name}::");
            laws = (kind.is_some() && !is_private(text, name)).then(Vec::new);
        } else if line == "}" {
            owner.clear();
            laws = None;
        } else if let (Some(laws), Some(law)) = (&mut laws, law(line)) {
            laws.push(law);
        } else if let (Some(laws), Some(start)) = (&laws, line.trim_start().strip_prefix("fn ")) {
            found.push(of_trait(&format!("{crate_name}::{owner}"), start, laws));
        }
        let Some(start) = public_function(line) else {
            continue;
        };
        let mut head = start.to_string();
        let mut last = line;
        while !last.ends_with('{') {
            last = lines.next().expect("a function has a body");
            head += "\n";
            head += last.trim();
        }
        found.push(contract(&format!("{crate_name}::{owner}"), &head));
    }
    found
}

/// `impl TRAIT for TYPE {` and `impl<'a> TRAIT for TYPE<'a> {`, or without a trait: the trait, if there is one, and
/// the type, without what stands in brackets.
fn impl_of(line: &str) -> Option<(Option<&str>, &str)> {
    let rest = line.strip_prefix("impl")?.strip_suffix(" {")?;
    let rest = match rest.strip_prefix('<') {
        Some(bounds) => bounds.split_once("> ")?.1,
        None => rest.strip_prefix(' ')?,
    };
    let (kind, name) = match rest.split_once(" for ") {
        Some((kind, name)) => (Some(kind), name),
        None => (None, rest),
    };
    Some((kind, name.split('<').next().unwrap_or(name)))
}

/// Whether the source keeps a type to itself; a type that it does not have is another crate's, and public.
fn is_private(text: &str, name: &str) -> bool {
    text.lines().any(|line| {
        let rest = line.strip_prefix("struct ").or(line.strip_prefix("enum "));
        rest.is_some_and(|rest| rest.split(|c| !is_of_a_word(c)).next() == Some(name))
    })
}

fn is_of_a_word(c: char) -> bool {
    c.is_alphanumeric() || c == '_'
}

/// What an impl of a trait promises in a line `ghost from_gives = { λ why r. r ≡ refusal_of why };`: the name of its
/// law, and the claim, with `result` for the last name, as the claims of `ensures` have it. Of a law that is no
/// such line there is nothing, so the function has no promise, which is a flaw.
fn law(line: &str) -> Option<(&str, String)> {
    let (name, rest) = line
        .trim_start()
        .strip_prefix("ghost ")?
        .split_once(" = { λ ")?;
    let (names, claim) = rest.strip_suffix(" };")?.split_once(". ")?;
    let answer = names.split(' ').next_back()?;
    let mut named = String::new();
    for piece in claim.split_inclusive(|c| !is_of_a_word(c)) {
        let word = piece.trim_end_matches(|c| !is_of_a_word(c));
        named += if word == answer { "result" } else { word };
        named += &piece[word.len()..];
    }
    Some((name, named))
}

/// A function of a trait, which asks nothing and promises its law, as `from_gives` of `from`.
fn of_trait(owner: &str, head: &str, laws: &[(&str, String)]) -> Contract {
    let mut made = contract(owner, head);
    let (_, name) = made.name.rsplit_once("::").expect("the crate's name");
    let law = format!("{name}_gives");
    let own = laws.iter().filter(|(name, _)| *name == law);
    made.ensures = own.map(|(_, claim)| claim.clone()).collect();
    made
}

/// What follows `pub fn` or `pub extern "C" fn`.
fn public_function(line: &str) -> Option<&str> {
    let rest = line.trim_start().strip_prefix("pub ")?;
    rest.strip_prefix("extern \"C\" ")
        .unwrap_or(rest)
        .strip_prefix("fn ")
}

fn contract(owner: &str, head: &str) -> Contract {
    let signature = head.split("\nrequires").next().unwrap_or(head);
    let signature = signature.split("\nensures").next().unwrap_or(signature);
    let (front, rest) = signature.split_once('(').expect("parameters");
    let (name, generics) = front.split_once('<').unwrap_or((front, ""));
    let (inner, after) = rest.split_once(')').expect("the parameters' end");
    let answer = after.trim().strip_prefix("->").unwrap_or("");
    Contract {
        name: format!("{owner}{name}"),
        generics: generics.trim_end_matches('>').to_string(),
        parameters: parameters(inner),
        mutable: signature.matches("&mut").count(),
        answer: answer.trim_end_matches('{').trim().to_string(),
        requires: clauses(head, "requires"),
        ensures: clauses(head, "ensures"),
    }
}

/// What is claimed in the clauses that begin with this word, each a line: `requires { CLAIM }` or
/// `requires name { CLAIM }`. Of a clause that is no such line the claim is empty, which is no equation.
fn clauses(head: &str, word: &str) -> Vec<String> {
    let rests = head.lines().filter_map(|line| line.strip_prefix(word));
    rests
        .map(|rest| {
            let claim = rest.split_once('{').map(|(_, claim)| claim.trim());
            let claim = claim.and_then(|claim| claim.strip_suffix('}'));
            claim.unwrap_or_default().trim().to_string()
        })
        .collect()
}

/// The parameters, `self` among them with the type that its form stands for.
fn parameters(inner: &str) -> Vec<Parameter> {
    let pairs = inner.split(',').filter_map(|p| match p.trim() {
        "self" => Some(("self", "Self")),
        "&self" => Some(("self", "&Self")),
        "&mut self" => Some(("self", "&mut Self")),
        other => other.split_once(':'),
    });
    pairs
        .map(|(name, kind)| Parameter {
            name: name.trim().to_string(),
            kind: kind.trim().to_string(),
        })
        .collect()
}

// What a bundle is made of, besides the result and the lent buffers.
const BUNDLES: [&str; 8] = [
    "outcome",
    "world",
    "masked",
    "board",
    "bench",
    "shared_bench",
    "state",
    "tt",
];

// What a call was granted, as numbers or as one value, which stands in the bundle as it came: equal bundles have
// equal parts.
const GRANTS: [&str; 2] = ["(grant own other) ", "grant "];

impl Contract {
    /// The parameters that are lent to be changed.
    pub fn lent(&self) -> Vec<&str> {
        let all = self.parameters.iter();
        let lent = all.filter(|parameter| parameter.kind.starts_with("&mut"));
        lent.map(|parameter| parameter.name.as_str()).collect()
    }

    /// Whether it is for any reader or writer, of which no clause can say what they give or take.
    pub fn has_streams(&self) -> bool {
        let mut bounds = self.generics.split([',', ':', '+']).map(str::trim);
        bounds.any(|bound| bound == "Read" || bound == "Write")
    }

    /// What is wrong with its form, if anything.
    pub fn flaw(&self) -> Option<&'static str> {
        if self.lent().len() != self.mutable {
            return Some("something is lent that was not read");
        }
        let [claim, bounds @ ..] = &self.ensures[..] else {
            return Some("no ensures");
        };
        if bounds.iter().any(|bound| !self.is_bound(bound)) {
            return Some("not one ensures");
        }
        if let Some(text) = claim.strip_prefix("Appended ") {
            return self.writer_flaw(text);
        }
        let sides: Vec<&str> = claim.split(" ≡ ").collect();
        let [left, right] = sides[..] else {
            return Some("not one equation");
        };
        if !is_whole(left) || !is_whole(right) {
            return Some("the equation is a part of something else");
        }
        self.bundle_flaw(left).or(self.input_flaw(right))
    }

    /// Whether it only says once more how large the result is at most: a caller that casts it need not look
    /// into the equation.
    fn is_bound(&self, claim: &str) -> bool {
        let limit = claim.strip_prefix("result < ");
        limit.is_some_and(|limit| is_whole(limit) && self.input_flaw(limit).is_none())
    }

    /// The left side is the result and every lent buffer at exit, each once, and nothing else.
    fn bundle_flaw(&self, left: &str) -> Option<&'static str> {
        let rest = GRANTS.iter().fold(left.to_string(), |rest, granted| {
            rest.replacen(granted, "", 1)
        });
        // a lent result is told by what it holds
        let rest = if self.answer.starts_with('&') {
            rest.replacen("result.now", "result", 1)
        } else {
            rest
        };
        let exits: Vec<String> = self.lent().iter().map(|b| format!("{b}.new")).collect();
        let count = |one: &str| words(&rest).filter(|word| *word == one).count();
        if exits.iter().any(|exit| count(exit) != 1) {
            return Some("a lent buffer is not on the left once");
        }
        if count("result") != usize::from(!self.answer.is_empty()) {
            return Some("the result is not on the left once");
        }
        let known = |word: &str| {
            word == "result" || BUNDLES.contains(&word) || exits.iter().any(|exit| exit == word)
        };
        let is_bundle = words(&rest).all(known);
        (!is_bundle).then_some("the left is no bundle")
    }

    /// `Appended before TEXT after`, of a cursor: all the equations of `Appended` are of this form.
    fn writer_flaw(&self, text: &str) -> Option<&'static str> {
        let lent = self.lent();
        let ([out], true) = (&lent[..], self.answer.is_empty()) else {
            return Some("not a writer");
        };
        let inner = text.strip_prefix(&format!("{out}.old "));
        let inner = inner.and_then(|t| t.strip_suffix(&format!(" {out}.new")));
        let Some(inner) = inner else {
            return Some("not what a writer promises");
        };
        if !is_whole(inner) {
            return Some("the writer's promise is a part of something else");
        }
        self.input_flaw(inner)
    }

    /// The right side speaks of the input alone: a buffer in it is the buffer at entry.
    fn input_flaw(&self, right: &str) -> Option<&'static str> {
        let is_of_a_name = |c: char| c.is_alphanumeric() || c == '_' || c == '.';
        right
            .split(|c| !is_of_a_name(c))
            .any(|name| !self.is_input(name))
            .then_some("the right speaks of the outcome")
    }

    /// Whether a name in a clause, with what is taken of it, is of the input: `b.old` of what is lent to be
    /// changed, `b.now` of what is lent to be read, and neither a reference by itself nor the outcome.
    fn is_input(&self, name: &str) -> bool {
        let parts: Vec<&str> = name.split('.').collect();
        if parts.iter().any(|part| ["result", "new"].contains(part)) {
            return false;
        }
        let (first, time) = (parts[0], parts.get(1).copied());
        match self.parameters.iter().find(|p| p.name == first) {
            Some(p) if p.kind.starts_with("&mut") => time == Some("old"),
            Some(p) if p.kind.starts_with('&') => time == Some("now"),
            _ => true,
        }
    }
}

/// One side of an equation and nothing beside it: its brackets match, and nothing joins it to
/// another claim.
fn is_whole(side: &str) -> bool {
    let mut depth = 0i32;
    for letter in side.chars() {
        depth += i32::from(letter == '(') - i32::from(letter == ')');
        if depth < 0 || "→↔⊎×≤<∀Σ".contains(letter) {
            return false;
        }
    }
    depth == 0
}

fn words(text: &str) -> impl Iterator<Item = &str> {
    text.split([' ', '(', ')', ','])
        .filter(|word| !word.is_empty())
}

/// The public contracts as a document.
pub fn document() -> String {
    let all = all();
    let (inner, open): (Vec<_>, Vec<_>) = all.iter().partition(|c| !c.requires.is_empty());
    let mut page = String::from(
        "# Public contracts\n\nMade from the sources by `make contracts`; a test compares the two, and \
         looks whether each contract is one equation of all that a call answers and leaves to what a \
         definition says of its input (`host/contracts`); of what is read from a stream no definition \
         can say it ([EXCEPTIONS.md](EXCEPTIONS.md)). In a clause `result` is what the call answers, \
         `b.old` is the buffer b before the call and `b.new` after it, and `b.now` a buffer that is \
         only read.\n\n## For every input\n\n| Function | Ensures |\n|---|---|\n",
    );
    for c in open {
        page += &format!("| `{}` | {} |\n", c.name, code(&c.ensures));
    }
    page += "\n## With a `requires`\n\nPublic for other crates of this repository alone; the prover \
             accepts no call that does not show the `requires`.\n\n| Function | Requires | Ensures |\n|---|---|---|\n";
    for c in inner {
        page += &format!(
            "| `{}` | {} | {} |\n",
            c.name,
            code(&c.requires),
            code(&c.ensures)
        );
    }
    page
}

fn code(clauses: &[String]) -> String {
    let spans: Vec<String> = clauses.iter().map(|clause| format!("`{clause}`")).collect();
    spans.join(", ")
}
