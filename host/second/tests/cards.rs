//! The twelve bench cards of the paper, and the further ones.

use second::*;
use testing::example::IMAGE;

fn word_text(bits: u32) -> Result<String, u32> {
    let mut room = [0; 24];
    let length = text_of_word(bits, &mut room)?;
    Ok(String::from_utf8(room[..length].to_vec()).unwrap())
}

fn half_text(bits: u16) -> Result<String, u32> {
    let mut room = [0; 24];
    let length = text_of_half(bits, &mut room)?;
    Ok(String::from_utf8(room[..length].to_vec()).unwrap())
}

/// One step of a word on a state, in a memory with that word at its pc and 0x8B at 128.
fn after(word: u32, s: &mut State) -> Result<(), Refused> {
    let mut mem = vec![0; 256];
    mem[0x80] = 0x8b;
    mem[s.pc as usize..][..4].copy_from_slice(&word.to_le_bytes());
    step(s, &mut mem, &mut [0; 512])
}

#[test]
fn cards_1_to_7_bits() {
    assert_eq!(word_text(0x00a0_0513).unwrap(), "addi x10,x0,10");
    assert_eq!(word_text(0xfe00_0ee3).unwrap(), "beq x0,x0,-4");
    assert_eq!(half_text(0x429d).unwrap(), "c:addi x5,x0,7");
    assert_eq!(half_text(0x8082).unwrap(), "c:jalr x0,0(x1)");
    assert_eq!(half_text(0x8002), Err(7));
    assert_eq!(half_text(0x9002).unwrap(), "c:ebreak");
    assert_eq!(half_text(0x0000), Err(7));
    assert_eq!(half_text(0xffff), Err(7));
    assert_eq!(half_text(0x0001).unwrap(), "c:addi x0,x0,0");
    assert_eq!(half_text(0x0141).unwrap(), "c:addi x2,x2,16");
    assert_eq!(expand(0x6141), expand(0x0141));
    assert_eq!(shorten(expand(0x6141).unwrap()), Ok(0x0141));
    assert_eq!(half_text(0x6105).unwrap(), "c:addi x2,x2,32");
}

#[test]
fn cards_8_to_10_steps() {
    // mulhsu x3,x1,x2
    let mut s = State::fresh();
    (s.x[0], s.x[1]) = (u32::MAX, u32::MAX);
    after(0x0220_a1b3, &mut s).unwrap();
    assert_eq!(s.x[2], u32::MAX);
    // mulh x3,x1,x1
    let mut s = State::fresh();
    s.x[0] = 0x8000_0000;
    after(0x0210_91b3, &mut s).unwrap();
    assert_eq!(s.x[2], 0x4000_0000);
    // lb x3,128(x0)
    let mut s = State::fresh();
    after(0x0800_0183, &mut s).unwrap();
    assert_eq!(s.x[2], 0xffff_ff8b);
    // jalr x1,3(x1)
    let mut s = State::fresh();
    (s.pc, s.x[0]) = (0x20, 0x10);
    after(0x0030_80e7, &mut s).unwrap();
    assert_eq!((s.pc, s.x[0]), (0x12, 0x24));
}

#[test]
fn cards_11_and_12_runs() {
    let mut burnt_with_7 = [0; 512];
    (burnt_with_7[0], burnt_with_7[4]) = (7, 1);
    for (budget, stop) in [(100, 1), (3, 0)] {
        let (mut s, mut mem, mut row) = (State::fresh(), IMAGE, [0; 512]);
        assert_eq!(run(&mut s, &mut mem, &mut row, budget), Ok(3));
        assert_eq!((s.stop, s.address, s.pc, s.count), (stop, 0, 10, 3));
        assert_eq!((row, mem), (burnt_with_7, IMAGE));
    }
    let (mut s, mut mem, mut row) = (State::fresh(), IMAGE, burnt_with_7);
    assert_eq!(run(&mut s, &mut mem, &mut row, 100), Ok(2));
    assert_eq!((s.stop, s.address, s.pc), (9, 0x8000_0000, 6));
    assert_eq!(row, burnt_with_7);
}

/// The stop of one step of a load from 0(x1), with this address in x1.
fn stop_of_load(word: u32, length: usize, address: usize) -> u8 {
    let (mut s, mut mem) = (State::fresh(), vec![0; length]);
    mem[..4].copy_from_slice(&word.to_le_bytes());
    s.x[0] = address as u32;
    step(&mut s, &mut mem, &mut [0; 512]).unwrap();
    s.stop
}

#[test]
fn loads_at_the_end_of_memory() {
    const LW: u32 = 0x0000_a183;
    const LH: u32 = 0x0000_9183;
    for length in (4..=256).chain([65_532, 65_536]).filter(|m| m % 4 == 0) {
        assert_eq!(stop_of_load(LW, length, length - 4), 0);
        assert_eq!(stop_of_load(LW, length, length), 6);
        assert_eq!(stop_of_load(LH, length, length - 3), 5);
        assert_eq!(stop_of_load(LH, length, length + 1), 5);
    }
}

#[test]
fn shifts_of_short_instructions() {
    // C.SRLI x8 by 31 and by 32
    assert_eq!(half_text(0x807d).unwrap(), "c:srli x8,x8,31");
    assert_eq!(half_text(0x9001), Err(7));
}

#[test]
fn listings() {
    let expected = "00000000 429d c:addi x5,x0,7\n00000002 80000337 lui x6,524288\n\
        00000006 00532023 sw x5,0(x6)\n0000000a 00000073 ecall\n";
    assert_eq!(listing(&IMAGE), expected);
    assert_eq!(
        listing(&[0xff, 0xff, 1]),
        "00000000 ffff ?\n00000002 01 ?\n"
    );
    assert_eq!(listing(&[]), "");
    assert_eq!(listing(&vec![0; 65_537]), "too long\n");
    // the second line is 32 bytes long, and a further line needs 38 bytes of room
    for (size, answer) in [(37, (0, 2)), (69, (32, 6)), (70, (62, 10))] {
        let mut room = vec![b'.'; size];
        assert_eq!(list(&IMAGE, 2, &mut room), answer);
        let (lines, rest) = room.split_at(answer.0);
        assert_eq!(lines, &expected.as_bytes()[29..29 + answer.0]);
        assert!(rest.iter().all(|&byte| byte == b'.'));
    }
    assert_eq!(list(&IMAGE, 14, &mut [0; 64]), (0, 14));
    assert_eq!(list(&IMAGE, 99, &mut [0; 64]), (0, 99));
}
