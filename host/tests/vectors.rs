//! The library says of every outside vector what the vector says.
use phuyurik::{Error, Instruction};
use testing::{Codes, Fault, Numbers};

fn instruction([operation, rd, rs1, rs2, imm]: Numbers) -> Instruction {
    Instruction {
        operation,
        rd,
        rs1,
        rs2,
        imm,
    }
}

fn numbers(i: Instruction) -> Numbers {
    [i.operation, i.rd, i.rs1, i.rs2, i.imm]
}

fn number(error: Error) -> u32 {
    let refusal = error.refusal();
    refusal.expect("an error is a refusal").number()
}

fn fault(error: Error) -> Fault {
    let place = match error {
        Error::Line { line, byte, .. } => Some((line, byte)),
        _ => None,
    };
    (number(error), place)
}

const LIBRARY: Codes = Codes {
    decode: |bits| phuyurik::decode(bits).map(numbers).map_err(number),
    encode: |i| phuyurik::encode(instruction(i)).map_err(number),
    expand: |bits| phuyurik::expand(bits).map(numbers).map_err(number),
    shorten: |i| phuyurik::shorten(instruction(i)).map_err(number),
    text_of_word: |bits| phuyurik::text_of_word(bits).map_err(number),
    text_of_half: |bits| phuyurik::text_of_half(bits).map_err(number),
    assemble: |text| phuyurik::assemble(text).map_err(fault),
};

#[test]
fn words_are_those_of_the_vectors() {
    LIBRARY.hold_words();
}

#[test]
fn halfwords_are_those_of_the_vectors() {
    LIBRARY.hold_halves();
}

#[test]
fn texts_are_those_of_the_vectors() {
    LIBRARY.hold_texts();
}

#[test]
fn lines_are_read_back_to_the_vectors() {
    LIBRARY.hold_lines();
}
