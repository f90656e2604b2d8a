use phuyurik::{Board, Error, Row, State};

fn main() -> Result<(), Error> {
    // addi x5,x0,7; lui x6,524288; sw x5,0(x6); ecall
    let mut memory = [
        0x9D, 0x42, 0x37, 0x03, 0x00, 0x80, 0x23, 0x20, 0x53, 0x00, 0x73, 0, 0, 0,
    ];
    let (mut state, mut row) = (State::fresh(), Row::default());
    let retired = Board::new(&mut memory, &mut row).run(&mut state, 100)?;
    let (stop, word) = (state.stop()?, row.word(0).value());
    println!("{retired} retired, stopped by {stop}, word 0 is {word}");
    Ok(())
}
