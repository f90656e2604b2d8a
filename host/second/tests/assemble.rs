//! Lines read and lines refused, as request 3 of 12 has them in words.

use second::{assemble, refusal, Fault};
use testing::example::{IMAGE, LINES};

/// What every byte of a room is before a call.
const FILL: u8 = 0xa5;

/// The bytes that a text gives, in a room with bytes to spare, which must stay.
fn bytes_of(text: &str) -> Vec<u8> {
    let mut room = vec![FILL; text.len() + 8];
    let length = assemble(text.as_bytes(), &mut room).unwrap_or_else(|f| panic!("{text:?}: {f:?}"));
    assert!(room[length..].iter().all(|byte| *byte == FILL), "{text:?}");
    room.truncate(length);
    room
}

fn half(text: &str) -> u16 {
    u16::from_le_bytes(bytes_of(text).try_into().expect("two bytes"))
}

fn word(text: &str) -> u32 {
    u32::from_le_bytes(bytes_of(text).try_into().expect("four bytes"))
}

/// The text is refused so in every room, and the room stays.
fn refused(text: &str, number: u32, line: usize, byte: usize) {
    let place = Some((line, byte));
    for size in [0, text.len() + 8] {
        let mut room = vec![FILL; size];
        let answer = assemble(text.as_bytes(), &mut room);
        assert_eq!(answer, Err(Fault { number, place }), "{text:?}");
        assert_eq!(room, vec![FILL; size], "{text:?}");
    }
}

fn unreadable(text: &str, byte: usize) {
    refused(text, refusal::UNREADABLE, 0, byte);
}

fn wrong_number(line: &str, byte: usize) {
    refused(&format!("{line}\n"), refusal::NUMBER, 0, byte);
}

#[test]
fn the_papers_lines_give_the_papers_bytes() {
    assert_eq!(bytes_of(LINES), IMAGE);
    assert!(bytes_of("").is_empty());
}

#[test]
fn a_line_gives_its_own_bits_or_the_smallest_halfword() {
    // cards 1, 2, 4, 5 and 7
    assert_eq!(word("addi x10,x0,10\n"), 0x00a0_0513);
    assert_eq!(word("beq x0,x0,-4\n"), 0xfe00_0ee3);
    assert_eq!(half("c:jalr x0,0(x1)\n"), 0x8082);
    assert_eq!(half("c:ebreak\n"), 0x9002);
    assert_eq!(half("c:addi x2,x2,16\n"), 0x0141);
    assert_eq!(half("c:addi x2,x2,32\n"), 0x6105);
}

#[test]
fn a_room_shorter_than_the_output_is_refused_and_stays() {
    for size in 0..IMAGE.len() {
        let mut room = vec![FILL; size];
        let fault = Fault {
            number: refusal::OUTPUT_ROOM,
            place: None,
        };
        assert_eq!(assemble(LINES.as_bytes(), &mut room), Err(fault));
        assert_eq!(room, vec![FILL; size]);
    }
    let mut room = [FILL; 14];
    assert_eq!(assemble(LINES.as_bytes(), &mut room), Ok(14));
    assert_eq!(room, IMAGE);
    assert_eq!(assemble(b"", &mut []), Ok(0));
}

#[test]
fn the_first_byte_that_cannot_continue_a_name() {
    for (text, byte) in [
        ("\n", 0),
        ("?\n", 0),
        (" ecall\n", 0),
        ("Add x1,x1,x1\n", 0),
    ] {
        unreadable(text, byte);
    }
    // add and addi go on from `add`; mulhsu from `mulhs`; mulh, mulhsu and mulhu from `mulh`
    for (text, byte) in [("addx", 3), ("add\n", 3), ("mulhsx", 5), ("mulhx", 4)] {
        unreadable(text, byte);
    }
    for (text, byte) in [
        ("ecall x1\n", 5),
        ("ecall\r\n", 5),
        ("lui\n", 3),
        ("lwu x1", 2),
    ] {
        unreadable(text, byte);
    }
    for (text, byte) in [("cx", 1), ("c:ec,", 4), ("c:c:ecall\n", 2), ("c:\n", 2)] {
        unreadable(text, byte);
    }
}

#[test]
fn the_first_byte_that_cannot_continue_the_operands() {
    for (text, byte) in [
        ("add  x1,x2,x3\n", 4),
        ("add 1,x2,x3\n", 4),
        ("add x,x2,x3\n", 5),
        ("add x-1,x2,x3\n", 5),
        ("add x1, x2,x3\n", 7),
        ("add x1,x2,3\n", 10),
        ("add x1,x2,x3 \n", 12),
        ("add x1,x2,x3\r\n", 12),
        ("addi x1,x2,x3\n", 11),
        ("addi x1,x2,+3\n", 11),
        ("addi x1,x2,--3\n", 12),
        ("addi x1,x2,-\n", 12),
        ("addi x1,x2,0x3\n", 12),
        ("lw x1,(x2)\n", 6),
        ("lw x1,8\n", 7),
        ("lw x1,8(2)\n", 8),
        ("lw x1,8(x2\n", 10),
        ("lw x1,8(x2),\n", 11),
        ("lui x1,8(x2)\n", 8),
        ("jal x1,x2,8\n", 7),
        ("fence\n", 5),
        ("fence x0,x0\n", 11),
    ] {
        unreadable(text, byte);
    }
}

#[test]
fn a_text_that_ends_early_is_refused_at_the_byte_after_the_last() {
    for line in [
        "c:mulhsu x1,x22,x3\n",
        "lui x1,-12\n",
        "sw x5,-1(x6)\n",
        "ecall\n",
    ] {
        for length in 1..line.len() {
            unreadable(&line[..length], length);
            let text = format!("ebreak\n{}", &line[..length]);
            refused(&text, refusal::UNREADABLE, 1, length);
        }
    }
}

#[test]
fn a_number_is_spelled_in_one_way() {
    for (line, byte) in [
        ("add x01,x2,x3", 5),
        ("add x1,x00,x3", 8),
        ("add x1,x2,x03", 11),
        ("addi x1,x2,03", 11),
        ("addi x1,x2,00", 11),
        ("addi x1,x2,-03", 11),
        ("addi x1,x2,-0", 11),
        ("slli x1,x2,-0", 11),
        ("lui x1,-0", 7),
        ("fence x1,x2,-0", 12),
        ("lw x1,-0(x2)", 6),
        ("lw x1,0(x02)", 9),
    ] {
        wrong_number(line, byte);
    }
}

/// The least and the greatest number that each kind of operand holds, and the next ones outside: by
/// the number of bits in document 01 and the manual. An odd offset is not allowed.
#[test]
fn numbers_are_held_up_to_their_limits() {
    for (before, allowed, after, refused) in [
        ("add x", [0, 31], ",x1,x1", [32, 4_294_967_296_i64]),
        ("lui x1,", [0, 1_048_575], "", [-1, 1_048_576]),
        ("auipc x1,", [0, 1_048_575], "", [-1_048_576, 1_048_576]),
        (
            "jal x1,",
            [-1_048_576, 1_048_574],
            "",
            [-1_048_578, 1_048_576],
        ),
        ("jal x1,", [-2, 2], "", [-1, 1]),
        ("jalr x1,", [-2048, 2047], "(x1)", [-2049, 2048]),
        ("bgeu x1,x2,", [-4096, 4094], "", [-4098, 4096]),
        ("beq x1,x2,", [-2, 2], "", [-3, 4095]),
        ("lhu x1,", [-2048, 2047], "(x1)", [-2049, 2048]),
        ("sb x1,", [-2048, 2047], "(x1)", [-2049, 2048]),
        ("sltiu x1,x2,", [-2048, 2047], "", [-2049, 2048]),
        ("srai x1,x2,", [0, 31], "", [-1, 32]),
        ("fence x1,x2,", [0, 4095], "", [-1, 4096]),
    ] {
        for number in allowed {
            assert_eq!(bytes_of(&format!("{before}{number}{after}\n")).len(), 4);
        }
        for number in refused {
            wrong_number(&format!("{before}{number}{after}"), before.len());
        }
    }
}

#[test]
fn numbers_may_have_any_number_of_digits() {
    let long = "9".repeat(5000);
    let least = format!("-{long}");
    // numbers that are 5 modulo 2^32 or 2^64, and long ones
    for number in [
        "4294967301",
        "18446744073709551621",
        "-4294967291",
        &long,
        &least,
    ] {
        wrong_number(&format!("addi x1,x2,{number}"), 11);
    }
    wrong_number(&format!("addi x1,x{long},1"), 9);
    unreadable(&format!("addi x1,x{long};1\n"), 5009);
    unreadable(&format!("addi x1,x2,-{}", "0".repeat(70)), 82);
}

#[test]
fn the_leftmost_wrong_number_is_told() {
    for (line, byte) in [
        ("sw x32,4096(x33)", 4),
        ("sw x31,4096(x33)", 7),
        ("sw x31,-0(x33)", 7),
        ("sw x31,8(x33)", 10),
        ("bne x1,x40,3", 8),
        ("sub x99,x99,x99", 5),
        ("c:sub x9,x99,x99", 10),
    ] {
        wrong_number(line, byte);
    }
}

#[test]
fn a_mark_without_a_short_form_is_refused_at_byte_0() {
    // a field of more than six bits, a move that adds, lui of the stack pointer, and no form at all
    for line in [
        "c:lui x6,524288",
        "c:addi x5,x6,7",
        "c:lui x2,1",
        "c:mul x1,x1,x1",
        "c:ecall",
    ] {
        refused(&format!("{line}\n"), refusal::NO_SHORT_LINE, 0, 0);
        let text = format!("{LINES}{line}\n");
        refused(&text, refusal::NO_SHORT_LINE, 4, 0);
    }
}

#[test]
fn of_two_faults_the_first_lines_and_then_the_lower_number() {
    // in one line: 10 before 11, 11 before 12
    unreadable("addi x32,x2,a\n", 12);
    unreadable("addi x32,x2,00", 14);
    wrong_number("c:mul x1,x1,x32", 13);
    // in two: the first
    refused("c:ecall\n\n", refusal::NO_SHORT_LINE, 0, 0);
    refused("lui x1,-1\n\n", refusal::NUMBER, 0, 7);
    refused("ecall\n\nlui x1,-1\n", refusal::UNREADABLE, 1, 0);
    refused(
        "ecall\nebreak\nlui x1,-1\nc:ecall\nx",
        refusal::NUMBER,
        2,
        7,
    );
}
