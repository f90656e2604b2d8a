//! A recipe that clears the whole row before it trims, through the wrapper. Its steps are counted here
//! by hand: lui and addi, then sw, addi and bne for each word that is cleared, then two times addi and
//! sw, then ecall.
use phuyurik::*;

const CLEAR_TRIM: &[u8] = include_bytes!("../../examples/clear_trim.bin");

/// The words that it trims, with their values.
const TRIMMED: [(usize, u32); 2] = [(3, 37), (40, u32::MAX - 5)];

/// A row with these words burnt, and all others blank.
fn burnt(words: impl IntoIterator<Item = (usize, u32)>) -> Row {
    let mut bytes = [0; ROW];
    for (k, value) in words {
        bytes[8 * k..8 * k + 4].copy_from_slice(&value.to_le_bytes());
        bytes[8 * k + 4] = 1;
    }
    Row::from(bytes)
}

/// A start of the recipe: the number retired, and the state. Its memory stays as it is.
fn start(row: &mut Row) -> (u64, State) {
    let (mut memory, mut state) = (CLEAR_TRIM.to_vec(), State::fresh());
    let retired = Board::new(&mut memory, row).run(&mut state, 1000).unwrap();
    assert_eq!((&memory[..], state.count), (CLEAR_TRIM, retired));
    (retired, state)
}

/// A start that stops where the recipe clears word k, which is burnt; the row stays as it is.
fn stops_at(k: u32, row: &mut Row) {
    let before = row.clone();
    let (retired, state) = start(row);
    assert_eq!(retired, 2 + 3 * u64::from(k));
    assert_eq!((state.stop(), state.pc), (Ok(Stop::AlreadyBurnt), 8));
    assert_eq!(state.address(), 0x8000_0000 + 4 * k);
    assert_eq!(*row, before);
}

#[test]
fn clearing_burns_nothing_and_trimming_burns_two_words() {
    let mut row = Row::default();
    let (retired, state) = start(&mut row);
    assert_eq!(retired, 2 + 3 * 64 + 4);
    assert_eq!((state.stop(), state.pc), (Ok(Stop::Ecall), 32));
    assert_eq!(state.address(), 0);
    assert_eq!(row, burnt(TRIMMED));
    for (k, word) in row.words().enumerate() {
        let value = TRIMMED.iter().find(|(trimmed, _)| *trimmed == k);
        assert_eq!(word, value.map_or(Word::Blank, |(_, v)| Word::Burnt(*v)));
    }
}

#[test]
fn a_new_start_on_that_row_stops_at_word_3() {
    let mut row = burnt(TRIMMED);
    stops_at(3, &mut row);
    assert_eq!(row.words().filter(|word| word.is_burnt()).count(), 2);
}

/// Every other word burnt beforehand: zero to a burnt word stops, at the first.
#[test]
fn a_row_with_the_other_words_burnt_stops_at_word_0() {
    let others = (0..WORDS).filter(|k| TRIMMED.iter().all(|(trimmed, _)| trimmed != k));
    stops_at(0, &mut burnt(others.map(|k| (k, 1 << (k % 32)))));
}

/// One word burnt beforehand, each in turn; those that are cleared before it stay blank.
#[test]
fn a_burnt_word_stops_the_recipe_there() {
    for k in 0..WORDS {
        stops_at(k as u32, &mut burnt([(k, 0x0100_0000)]));
    }
}

/// However the run is cut, through a slot, it ends as the uncut one.
#[test]
fn in_pieces_it_ends_alike() {
    for piece in [1, 2, 3, 7, 100] {
        let (mut memory, mut row) = (CLEAR_TRIM.to_vec(), Row::default());
        let mut slots = Slots::new([0; RECORD]);
        let mut board = Board::new(&mut memory, &mut row);
        for _ in 0..=198 / piece {
            board.run_slot(&mut slots, 0, piece).unwrap();
        }
        let state = slots.read(0).unwrap();
        assert_eq!((state.stop(), state.count), (Ok(Stop::Ecall), 198));
        assert_eq!(row, burnt(TRIMMED));
    }
}
