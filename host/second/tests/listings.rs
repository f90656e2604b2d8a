//! The listings that stand in the repository: the paper's, and those of the outside vectors.

use std::collections::HashMap;

use second::listing;
use testing::vectors;

fn file(name: &str, which: &str) -> Vec<u8> {
    let root = env!("CARGO_MANIFEST_DIR");
    let path = format!("{root}/../../crates/{name}/{which}");
    std::fs::read(&path).unwrap_or_else(|problem| panic!("{path}: {problem}"))
}

#[test]
fn the_papers_listing_is_as_expected() {
    let lines = listing(&file("list_stdin", "stdin"));
    assert!(lines.as_bytes() == file("list_stdin", "stdout"));
}

#[test]
fn listings_are_as_expected() {
    let mut expected = &file("list_files", "stdout")[..];
    // The order of the program's main.
    let names = [
        "odd",
        "none",
        "halves_low",
        "halves_high",
        "halves_long",
        "words",
        "sort",
        "sort_short",
        "too_long",
    ];
    for name in names {
        let lines = listing(&file("list_files", &format!("data/{name}")));
        let rest = expected.strip_prefix(lines.as_bytes());
        expected = rest.unwrap_or_else(|| panic!("{name} differs"));
    }
    assert!(expected.is_empty(), "a listing of no image");
}

/// The text that the vectors have for each halfword and word.
fn texts() -> (HashMap<u16, String>, HashMap<u32, String>) {
    let (mut halves, mut words) = (HashMap::new(), HashMap::new());
    for v in vectors() {
        if let Some(half) = v.half {
            halves.insert(half, format!("c:{}", v.text));
        } else if v.meant.is_some() {
            words.insert(v.word, v.text);
        }
    }
    (halves, words)
}

#[test]
fn listings_of_halfwords_come_from_the_vectors() {
    let (halves, _) = texts();
    for name in ["halves_low", "halves_high"] {
        let image = file("list_files", &format!("data/{name}"));
        let mut expected = String::new();
        for (place, bytes) in image.chunks_exact(2).enumerate() {
            let half = u16::from_le_bytes([bytes[0], bytes[1]]);
            let text = halves.get(&half).map_or("?", String::as_str);
            expected += &format!("{:08x} {half:04x} {text}\n", 2 * place);
        }
        assert!(listing(&image) == expected, "{name} differs");
    }
}

#[test]
fn listings_of_words_come_from_the_vectors() {
    let (halves, words) = texts();
    let image = file("list_files", "data/words");
    let mut expected = String::new();
    let mut at = 0;
    while at < image.len() {
        let half = u16::from_le_bytes([image[at], image[at + 1]]);
        let word = image
            .get(at..at + 4)
            .map(|b| u32::from_le_bytes([b[0], b[1], b[2], b[3]]));
        if let Some((bits, text)) = word.and_then(|w| Some((w, words.get(&w)?))) {
            expected += &format!("{at:08x} {bits:08x} {text}\n");
            at += 4;
        } else {
            let text = halves.get(&half).map_or("?", String::as_str);
            expected += &format!("{at:08x} {half:04x} {text}\n");
            at += 2;
        }
    }
    assert!(listing(&image) == expected, "the words differ");
}
