//! The second emulator says of every outside vector what the vector says.
use second::Inst;
use testing::{Codes, Fault, Numbers};

fn inst([operation, rd, rs1, rs2, imm]: Numbers) -> Inst {
    Inst {
        operation,
        rd,
        rs1,
        rs2,
        imm,
    }
}

fn numbers(i: Inst) -> Numbers {
    [i.operation, i.rd, i.rs1, i.rs2, i.imm]
}

fn text(write: impl Fn(&mut [u8]) -> Result<usize, u32>) -> Result<String, u32> {
    let mut room = [0; 24];
    let length = write(&mut room)?;
    Ok(String::from_utf8_lossy(&room[..length]).into_owned())
}

fn assemble(text: &[u8]) -> Result<Vec<u8>, Fault> {
    let mut room = vec![0; text.len()];
    let answer = second::assemble(text, &mut room);
    room.truncate(answer.map_err(|fault| (fault.number, fault.place))?);
    Ok(room)
}

const SECOND: Codes = Codes {
    decode: |bits| second::decode(bits).map(numbers),
    encode: |i| second::encode(inst(i)),
    expand: |bits| second::expand(bits).map(numbers),
    shorten: |i| second::shorten(inst(i)),
    text_of_word: |bits| text(|room| second::text_of_word(bits, room)),
    text_of_half: |bits| text(|room| second::text_of_half(bits, room)),
    assemble,
};

#[test]
fn words_are_those_of_the_vectors() {
    SECOND.hold_words();
}

#[test]
fn halfwords_are_those_of_the_vectors() {
    SECOND.hold_halves();
}

#[test]
fn texts_are_those_of_the_vectors() {
    SECOND.hold_texts();
}

#[test]
fn lines_are_read_back_to_the_vectors() {
    SECOND.hold_lines();
}
