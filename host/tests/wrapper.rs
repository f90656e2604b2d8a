//! The paper's bench cards through the wrapper, and refusals as errors that leave everything as it was.
use phuyurik::*;
use testing::example::{IMAGE as RECIPE, LINES};

fn refused<T>(refusal: Refusal) -> Result<T, Error> {
    Err(Error::Refused(refusal))
}

/// One instruction at pc, with x1 and x2 as given.
fn stepped(pc: u32, bits: u32, x1: u32, x2: u32) -> State {
    let mut memory = vec![0; pc as usize];
    memory.extend_from_slice(&bits.to_le_bytes());
    let mut s = State::fresh();
    s.pc = pc;
    s.set_reg(1, x1);
    s.set_reg(2, x2);
    let mut row = Row::default();
    Board::new(&mut memory, &mut row).step(&mut s).unwrap();
    s
}

#[test]
fn cards_1_to_7() {
    assert_eq!(text_of_word(0x00A0_0513).unwrap(), "addi x10,x0,10");
    assert_eq!(text_of_word(0xFE00_0EE3).unwrap(), "beq x0,x0,-4");
    assert_eq!(text_of_half(0x429D).unwrap(), "c:addi x5,x0,7");
    assert_eq!(text_of_half(0x8082).unwrap(), "c:jalr x0,0(x1)");
    assert_eq!(text_of_half(0x8002), refused(Refusal::NoInstruction));
    assert_eq!(text_of_half(0x9002).unwrap(), "c:ebreak");
    assert_eq!(text_of_half(0x0000), refused(Refusal::NoInstruction));
    assert_eq!(text_of_half(0xFFFF), refused(Refusal::NoInstruction));
    assert_eq!(text_of_half(0x0001).unwrap(), "c:addi x0,x0,0");
    let both = expand(0x0141).unwrap();
    assert_eq!(expand(0x6141), Ok(both));
    assert_eq!(text_of_half(0x0141).unwrap(), "c:addi x2,x2,16");
    assert_eq!(shorten(both), Ok(0x0141));
    assert_eq!(text_of_half(0x6105).unwrap(), "c:addi x2,x2,32");
}

#[test]
fn cards_8_to_10() {
    // mulhsu x3,x1,x2; mulh x3,x1,x2; lb x3,4(x0); jalr x1,3(x1)
    let s = stepped(0, 0x0220_A1B3, u32::MAX, u32::MAX);
    assert_eq!(s.reg(3), 0xFFFF_FFFF);
    let s = stepped(0, 0x0220_91B3, 0x8000_0000, 0x8000_0000);
    assert_eq!(s.reg(3), 0x4000_0000);
    let mut memory = [0x83, 0x01, 0x40, 0x00, 0x8B];
    let mut s = State::fresh();
    let mut row = Row::default();
    Board::new(&mut memory, &mut row).step(&mut s).unwrap();
    assert_eq!(s.reg(3), 0xFFFF_FF8B);
    let s = stepped(0x20, 0x0030_80E7, 0x10, 0);
    assert_eq!((s.pc, s.reg(1)), (0x12, 0x24));
}

/// A run of the paper's recipe from its start: the number retired, and the state.
fn recipe_on(row: &mut Row, budget: u64) -> (u64, State) {
    let (mut memory, mut s) = (RECIPE, State::fresh());
    let retired = Board::new(&mut memory, row).run(&mut s, budget).unwrap();
    assert_eq!(memory, RECIPE);
    (retired, s)
}

#[test]
fn cards_11_and_12() {
    let (mut row, mut burnt) = (Row::default(), [0; ROW]);
    (burnt[0], burnt[4]) = (7, 1);
    let burnt = Row::from(burnt);
    let (retired, s) = recipe_on(&mut row, 100);
    assert_eq!((retired, s.stop(), s.pc), (3, Ok(Stop::Ecall), 10));
    assert_eq!((&row, s.address()), (&burnt, 0));
    let (retired, s) = recipe_on(&mut row, 100);
    assert_eq!((retired, s.stop(), s.pc), (2, Ok(Stop::AlreadyBurnt), 6));
    assert_eq!((&row, s.address()), (&burnt, 0x8000_0000));
    let mut row = Row::default();
    let (retired, s) = recipe_on(&mut row, 3);
    assert_eq!((retired, s.stop(), s.pc), (3, Ok(Stop::Paused), 10));
    assert_eq!(row, burnt);
    let words = row.words().skip(1);
    assert_eq!(row.word(0), Word::Burnt(7));
    assert!(words.eq([Word::Blank; WORDS - 1]));
}

/// What a board is made of is read while it stands, and belongs to its lender again afterwards.
#[test]
fn a_board_serves_many_runs() {
    let (mut memory, mut row) = (RECIPE.to_vec(), vec![0; ROW]);
    let mut board = Board::new(&mut memory, &mut row);
    let (mut cut, mut whole) = (State::fresh(), Slots::new([0; RECORD]));
    for _ in 0..2 {
        assert_eq!(board.run(&mut cut, 1), Ok(1));
    }
    assert_eq!((board.memory(), board.row()), (&RECIPE[..], &[0; ROW][..]));
    assert_eq!(board.run(&mut cut, 9), Ok(1));
    assert_eq!(board.row()[..5], [7, 0, 0, 0, 1]);
    assert_eq!(board.run_slot(&mut whole, 0, 9), Ok(2));
    assert_eq!(whole.read(0).unwrap().stop(), Ok(Stop::AlreadyBurnt));
    assert_eq!(Row::try_from(&row[..]).unwrap().word(0), Word::Burnt(7));
}

#[test]
fn slots_keep_states() {
    let mut slots = Slots::new(vec![0xEE; 3 * RECORD]);
    let mut s = State::fresh();
    s.pc = 0x1234_5678;
    s.set_reg(31, 99);
    s.count = u64::MAX;
    s.set_stop_at(Stop::LoadOutside, 0x8765_4321);
    slots.write(1, &s).unwrap();
    assert_eq!((slots.read(1), slots.len()), (Ok(s), 3));
    assert_eq!(slots.read(0), refused(Refusal::StopNumber));
    let before = slots.clone();
    s.pc = 1;
    assert_eq!(slots.write(1, &s), refused(Refusal::OddPc));
    assert_eq!(slots.write(3, &s), refused(Refusal::Slot));
    assert_eq!(slots, before);
    let bytes = slots.into_inner();
    assert_eq!(
        bytes[RECORD..2 * RECORD],
        before.read(1).unwrap().to_bytes()
    );
    assert!(bytes[..RECORD].iter().all(|byte| *byte == 0xEE));
    assert!(bytes[2 * RECORD..].iter().all(|byte| *byte == 0xEE));
    let odd = Slots::new(&bytes[..RECORD + 1]);
    assert_eq!((odd.len(), odd.is_empty()), (1, false));
    assert_eq!(odd.read(0), refused(Refusal::Slot));
}

/// What each call answers for a state, given as its record. Nothing that was lent may change where it
/// refuses, nor where the state has stopped.
fn answers(record: [u8; RECORD]) -> [Result<(), Error>; 5] {
    let (mut memory, mut row) = (RECIPE, Row::default());
    let mut board = Board::new(&mut memory, &mut row);
    let mut s = State::from_bytes(record);
    let (mut slots, mut other) = (Slots::new(record), Slots::new([0; RECORD]));
    let all = [
        board.step(&mut s),
        board.run(&mut s, 9).map(|_| ()),
        other.write(0, &s),
        slots.read(0).map(|read| assert_eq!(read, s)),
        board.run_slot(&mut slots, 0, 9).map(|_| ()),
    ];
    assert_eq!((s.to_bytes(), slots.into_inner()), (record, record));
    let written = if all[2].is_ok() { record } else { [0; RECORD] };
    assert_eq!(other.into_inner(), written);
    assert_eq!((memory, row), (RECIPE, Row::default()));
    all
}

/// Bytes 137 to 139 are zero with every stop; 140 to 143, the address, with those that have none.
#[test]
fn what_stands_after_a_stop() {
    for (stop, at) in (0..=11).flat_map(|stop| (137..RECORD).map(move |at| (stop, at))) {
        let mut record = State::fresh().to_bytes();
        (record[136], record[at]) = (stop, 1);
        let answer = match (stop, at) {
            (3..=9 | 11, 140..) => Ok(()),
            _ => refused(Refusal::RecordEnd),
        };
        assert_eq!(answers(record), [answer; 5], "stop {stop}, byte {at}");
    }
}

/// An odd pc, then a stop number above 11, then the bytes after it: whatever else is wrong.
#[test]
fn faults_of_a_state_are_told_in_order() {
    for (at, stop) in (137..RECORD).flat_map(|at| [12, 23, 255].map(|stop| (at, stop))) {
        let mut record = State::fresh().to_bytes();
        (record[0], record[136], record[at]) = (1, stop, 1);
        assert_eq!(answers(record), [refused(Refusal::OddPc); 5]);
        record[0] = 2;
        assert_eq!(answers(record), [refused(Refusal::StopNumber); 5]);
        record[136] = 10;
        assert_eq!(answers(record), [refused(Refusal::RecordEnd); 5]);
        (record[0], record[136]) = (1, 0);
        assert_eq!(answers(record), [refused(Refusal::OddPc); 5]);
        (record[0], record[at]) = (2, 0);
        assert_eq!(Slots::new(record).read(0), Ok(State::from_bytes(record)));
    }
}

/// Three slots that version 0.2.0 wrote, before there were addresses: the paper's recipe paused after
/// two steps, the same on its own burnt row, and `c.li x5,7; lw x5,2000(x0)`.
const OLD_SLOTS: &[u8; 3 * RECORD] = include_bytes!("old.slots");

#[test]
fn old_records_of_stops_still_load() {
    let slots = Slots::new(OLD_SLOTS);
    let (burnt, outside) = (slots.read(1).unwrap(), slots.read(2).unwrap());
    assert_eq!((burnt.stop(), burnt.address()), (Ok(Stop::AlreadyBurnt), 0));
    assert_eq!((burnt.pc, burnt.reg(6), burnt.count), (6, 1 << 31, 2));
    assert_eq!(
        (outside.stop(), outside.address()),
        (Ok(Stop::LoadOutside), 0)
    );
    assert_eq!((outside.pc, outside.reg(5), outside.count), (2, 7, 1));
    for record in OLD_SLOTS.chunks_exact(RECORD).skip(1) {
        assert_eq!(answers(record.try_into().unwrap()), [Ok(()); 5]);
    }
}

#[test]
fn an_old_record_of_a_pause_goes_on() {
    let mut slots = Slots::new(*OLD_SLOTS);
    assert_eq!(slots.read(0).unwrap().stop(), Ok(Stop::Paused));
    let (mut memory, mut row) = (RECIPE, Row::default());
    let mut board = Board::new(&mut memory, &mut row);
    assert_eq!(board.run_slot(&mut slots, 0, 9), Ok(1));
    let s = slots.read(0).unwrap();
    assert_eq!((s.stop(), s.address()), (Ok(Stop::Ecall), 0));
    assert_eq!((s.pc, s.count, row.word(0)), (10, 3, Word::Burnt(7)));
}

/// A word is blank, eight zeros, or burnt: a value other than zero, the mark 1 and three zeros.
#[test]
fn which_row_records_are_refused() {
    let (blank, burnt) = ([0; 8], [7, 0, 0, 0, 1, 0, 0, 0]);
    let mut records = vec![(blank, true), (burnt, true)];
    records.extend([[0, 0, 0, 0, 1, 0, 0, 0], [7, 0, 0, 0, 2, 0, 0, 0]].map(|r| (r, false)));
    for place in 0..4 {
        let (mut with_mark, mut without) = (blank, blank);
        (with_mark[place], with_mark[4], without[place]) = (128, 1, 128);
        records.extend([(with_mark, true), (without, false)]);
    }
    for (place, mut record) in (5..8).flat_map(|place| [(place, blank), (place, burnt)]) {
        record[place] = 1;
        records.push((record, false));
    }
    for (record, is_sound) in records {
        let mut row = [burnt; WORDS].concat();
        row[8 * 40..8 * 41].copy_from_slice(&record);
        let answer = if is_sound {
            Ok(())
        } else {
            Err(Error::RowRecord { word: 40 })
        };
        assert_eq!(answers_of_row(&row), [answer; 3], "{record:?}");
    }
}

/// What each call answers for a row, of which the recipe's word is burnt or bad. Nothing that was lent may
/// change.
fn answers_of_row(row: &[u8]) -> [Result<(), Error>; 3] {
    let (mut memory, mut slots, mut lent) = (RECIPE, Slots::new([0; RECORD]), row.to_vec());
    let mut board = Board::new(&mut memory, &mut lent);
    let all = [
        board.step(&mut State::fresh()),
        board.run(&mut State::fresh(), 9).map(|_| ()),
        board.run_slot(&mut slots, 0, 0).map(|_| ()),
    ];
    assert_eq!((&lent[..], memory), (row, RECIPE));
    assert_eq!(slots.into_inner(), [0; RECORD]);
    all
}

/// Of all records that break the rules the lowest word is told, counted from 0; and none with a row of
/// another length.
#[test]
fn the_lowest_word_is_told() {
    for (word, higher) in (0..WORDS).flat_map(|word| [(word, word), (word, 63)]) {
        let mut row = [7, 0, 0, 0, 1, 0, 0, 0].repeat(WORDS);
        (row[8 * word + 4], row[8 * higher + 7]) = (0, 1);
        let answer = Err(Error::RowRecord { word });
        assert_eq!(answers_of_row(&row), [answer; 3]);
        row.push(0);
        assert_eq!(answers_of_row(&row), [refused(Refusal::RowLength); 3]);
    }
}

fn masks(own: u64, other: u64) -> Masks {
    let (own, other) = (own.into(), other.into());
    Masks { own, other }
}

/// What each call answers on a board with these masks, of which the row or the slot may be bad too. Nothing
/// that was lent may change where it refuses.
fn answers_of_masks(
    masks: Masks,
    row: &[u8],
    record: [u8; RECORD],
    k: usize,
) -> [Result<(), Error>; 3] {
    let (mut memory, mut lent, mut slots) = (RECIPE, row.to_vec(), Slots::new(record));
    let (mut first, mut second) = (State::from_bytes(record), State::from_bytes(record));
    let mut board = Board::shared(&mut memory, &mut lent, masks);
    let all = [
        board.step(&mut first),
        board.run(&mut second, 9).map(|_| ()),
        board.run_slot(&mut slots, k, 9).map(|_| ()),
    ];
    if all.iter().all(|answer| answer.is_err()) {
        assert_eq!((&lent[..], memory), (row, RECIPE));
        assert_eq!([first, second].map(|s| s.to_bytes()), [record; 2]);
        assert_eq!(slots.into_inner(), record);
    }
    all
}

/// After memory and row, before slot and state; and any masks that share none are accepted.
#[test]
fn masks_that_share_a_word_are_refused() {
    let (row, fresh) = ([0; ROW], State::fresh().to_bytes());
    for k in 0..64 {
        let shared = masks(1 << k, u64::MAX);
        let answers = answers_of_masks(shared, &row, fresh, 0);
        assert_eq!(answers, [refused(Refusal::MasksShare); 3]);
        for apart in [
            masks(1 << k, !(1 << k)),
            masks(!(1 << k), 1 << k),
            masks(0, 1 << k),
        ] {
            assert_eq!(answers_of_masks(apart, &row, fresh, 0), [Ok(()); 3]);
        }
    }
    let (shared, mut bad) = (masks(3, 2), row);
    (bad[8 * 40 + 7], bad[8 * 50 + 7]) = (1, 1);
    let answers = answers_of_masks(shared, &bad, fresh, 0);
    assert_eq!(answers, [Err(Error::RowRecord { word: 40 }); 3]);
    let answers = answers_of_masks(shared, &bad[1..], fresh, 0);
    assert_eq!(answers, [refused(Refusal::RowLength); 3]);
    let answers = answers_of_masks(shared, &row, [0xFF; RECORD], 7);
    assert_eq!(answers, [refused(Refusal::MasksShare); 3]);
    let mut board = (vec![0; LONGEST_MEMORY + 1], Row::default());
    let long = Board::shared(&mut board.0, &mut board.1, shared).step(&mut State::fresh());
    assert_eq!(long, refused(Refusal::MemoryTooLong));
}

const LOAD: u32 = 0x0003_2283; // lw x5,0(x6)
const STORE: u32 = 0x0053_2023; // sw x5,0(x6)
const STORE_ZERO: u32 = 0x0003_2023; // sw x0,0(x6)

/// One access at word k, with 9 in x5 and one word its own: the state, and word k afterwards.
fn accessed(access: u32, k: u32, own: u32, row: &Row) -> (State, Word) {
    let (mut memory, mut row, mut s) = (access.to_le_bytes(), row.clone(), State::fresh());
    s.set_reg(5, 9);
    s.set_reg(6, 0x8000_0000 + 4 * k);
    let mut board = Board::shared(&mut memory, &mut row, masks(1 << own, 0));
    board.step(&mut s).unwrap();
    (s, row.word(k as usize))
}

/// At a word that is not its own a load and a store stop with 11, burnt or not, also with zero; a word of
/// its own is loaded, burnt, or stops with 9.
#[test]
fn only_own_words_are_accessed() {
    let (blank, burnt) = (Row::default(), [7, 0, 0, 0, 1, 0, 0, 0].repeat(WORDS));
    let burnt = Row::try_from(&burnt[..]).unwrap();
    for (k, row) in (0..64).flat_map(|k| [(k, &blank), (k, &burnt)]) {
        let before = row.word(k as usize);
        let at = |s: State| (s.stop(), s.address(), s.reg(5), s.count);
        for (access, own) in [LOAD, STORE, STORE_ZERO].iter().flat_map(|a| {
            let others = [(k + 1) % 64, (k + 63) % 64, (k + 32) % 64];
            others.map(|own| (*a, own))
        }) {
            let (s, now) = accessed(access, k, own, row);
            let stopped = (Ok(Stop::NotOwned), 0x8000_0000 + 4 * k, 9, 0);
            assert_eq!((at(s), now), (stopped, before), "{access:08x} {k} {own}");
        }
        let (s, now) = accessed(LOAD, k, k, row);
        let loaded = (Ok(Stop::Paused), 0, before.value(), 1);
        assert_eq!((at(s), now), (loaded, before));
        for (access, word) in [(STORE, Word::Burnt(9)), (STORE_ZERO, Word::Blank)] {
            let (s, now) = accessed(access, k, k, row);
            let expected = match before {
                Word::Blank => ((Ok(Stop::Paused), 0, 9, 1), word),
                _ => ((Ok(Stop::AlreadyBurnt), 0x8000_0000 + 4 * k, 9, 0), before),
            };
            assert_eq!((at(s), now), expected, "{access:08x} {k}");
        }
    }
}

/// What is misaligned or outside is so for everyone.
#[test]
fn misaligned_and_outside_come_before_not_owned() {
    // lw x5,0(x6); sw x5,0(x6); lh x5,0(x6); sb x5,0(x6)
    for (bits, offset, stop) in [
        (0x0003_2283_u32, 2, Stop::LoadMisaligned),
        (0x0053_2023, 1, Stop::StoreMisaligned),
        (0x0003_2283, 256, Stop::LoadOutside),
        (0x0053_2023, 256, Stop::StoreOutside),
        (0x0003_1283, 4, Stop::LoadOutside),
        (0x0053_0023, 4, Stop::StoreOutside),
    ] {
        let (mut memory, mut row, mut s) = (bits.to_le_bytes(), Row::default(), State::fresh());
        s.set_reg(6, 0x8000_0000 + offset);
        let mut board = Board::shared(&mut memory, &mut row, masks(0, u64::MAX));
        board.step(&mut s).unwrap();
        assert_eq!((s.stop(), s.address()), (Ok(stop), 0x8000_0000 + offset));
    }
}

#[test]
fn refusals_carry_the_papers_words() {
    let mut row = [0; ROW];
    row[5] = 1;
    let error = Board::new(&mut [], &mut row).run(&mut State::fresh(), 1);
    let error = error.unwrap_err();
    let words = "refusal 3: record of word 0 breaks its rules";
    assert_eq!(error.to_string(), words);
    let mut room = [b'.'; 23];
    assert_eq!(put_text_of_word(0x73, &mut room), refused(Refusal::Room));
    assert_eq!(room, [b'.'; 23]);
    let numbers = Instruction {
        operation: 48,
        ..Instruction::default()
    };
    assert_eq!(encode(numbers), refused(Refusal::Field));
}

/// Every way to have a listing gives the same one.
#[test]
fn the_papers_listing() {
    let text = "00000000 429d c:addi x5,x0,7\n00000002 80000337 lui x6,524288\n\
                00000006 00532023 sw x5,0(x6)\n0000000a 00000073 ecall\n";
    assert_eq!(listing(&RECIPE).unwrap(), text);
    assert_eq!(
        listing(&[0xFF, 0xFF, 0x01]).unwrap(),
        "00000000 ffff ?\n00000002 01 ?\n"
    );
    assert_eq!(listing(&[]).unwrap(), "");
    assert_eq!(listing(&[0; LONGEST_MEMORY + 1]).unwrap(), "too long\n");
    let images = [&RECIPE[..], &[], &[0; 5], &[0; LONGEST_MEMORY + 1]];
    for image in images.into_iter().chain([&RECIPE.repeat(300)[..]]) {
        let all: Result<Vec<String>, Error> = lines(image).collect();
        assert!(all.unwrap().iter().eq(listing(image).unwrap().lines()));
    }
}

/// A room under the longest line holds none, and says so.
#[test]
fn pages_in_every_room() {
    assert_eq!(list(&RECIPE, 2, &mut [0; LINE - 1]), Ok((0, 2)));
    assert_eq!(list(&RECIPE, 0, &mut [0; LINE]), Ok((29, 2)));
    assert_eq!(list(&RECIPE, 14, &mut [0; LINE]), Ok((0, 14)));
}

/// The output stands at the front of the room, and bytes after it stay.
#[test]
fn the_papers_text_gives_the_papers_recipe() {
    assert_eq!(assemble(LINES.as_bytes()).unwrap(), RECIPE);
    let mut room = [0xEE; RECIPE.len() + 2];
    assert_eq!(assemble_into(LINES.as_bytes(), &mut room), Ok(RECIPE.len()));
    assert_eq!(room[..RECIPE.len()], RECIPE);
    assert_eq!(room[RECIPE.len()..], [0xEE; 2]);
    assert_eq!(assemble(b""), Ok(Vec::new()));
    assert_eq!(assemble_into(b"", &mut []), Ok(0));
    // Card 6: 0x0141 is the smaller of the two halfwords that stand for it.
    assert_eq!(assemble(b"c:addi x2,x2,16\n").unwrap(), [0x41, 0x01]);
    let least = assemble(b"sltiu x31,x31,-2048\n").unwrap();
    assert_eq!(least, 0x800F_BF93_u32.to_le_bytes());
}

/// A refusal of a line has its place, also where the room is too short; and the room keeps its bytes.
#[test]
fn a_line_at_fault_is_an_error_with_its_place() {
    use Refusal::{NoShortLine, NumberNotAllowed, Unreadable};
    let faults: [(&[u8], Refusal, usize, usize); 12] = [
        (b"\n", Unreadable, 0, 0),
        (b"ecall", Unreadable, 0, 5),
        (b"ecall\naddi x5, x0,7\n", Unreadable, 1, 8),
        (b"addi x32,x0,07 \n", Unreadable, 0, 14),
        (b"ecall\r\n", Unreadable, 0, 5),
        (b"ecall\necall\naddi x5,x0,99999\n", NumberNotAllowed, 2, 11),
        (b"addi x05,x32,-0\n", NumberNotAllowed, 0, 6),
        (b"addi x5,x32,-0\n", NumberNotAllowed, 0, 9),
        (b"addi x5,x31,-0\nnop\n", NumberNotAllowed, 0, 12),
        (b"beq x0,x0,3\n", NumberNotAllowed, 0, 10),
        (b"c:addi x5,x6,9999\n", NumberNotAllowed, 0, 13),
        (b"ecall\nc:addi x5,x6,7\nnop\n", NoShortLine, 1, 0),
    ];
    for (text, refusal, line, byte) in faults {
        let error = Error::Line {
            refusal,
            line,
            byte,
        };
        assert_eq!(assemble(text), Err(error));
        for length in [0, 3, 64] {
            let mut room = vec![0xEE; length];
            assert_eq!(assemble_into(text, &mut room), Err(error));
            assert_eq!(room, vec![0xEE; length]);
        }
        assert_eq!(error.refusal(), Some(refusal));
        let words = format!("line {line}, byte {byte}: {refusal}");
        assert_eq!(error.to_string(), words);
    }
}

/// It is of no line, and has no place.
#[test]
fn a_room_shorter_than_the_output_is_refused() {
    for length in 0..RECIPE.len() {
        let mut room = vec![0xEE; length];
        let done = assemble_into(LINES.as_bytes(), &mut room);
        assert_eq!(done, refused(Refusal::OutputRoom));
        assert_eq!(room, vec![0xEE; length]);
    }
}
