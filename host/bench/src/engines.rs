//! The three engines, made to look alike: an image in, the end of its run and the time out.
use crate::plain;
use crate::stopwatch::{of_this_program, timed};
use phuyurik::{Board, State};
use std::time::Duration;

/// No workload comes near it.
const BUDGET: u64 = 1 << 32;

#[derive(Clone, Copy, Debug, PartialEq, Eq)]
pub enum Engine {
    Phuyurik,
    Second,
    PlainC,
}

pub const ENGINES: [Engine; 3] = [Engine::Phuyurik, Engine::Second, Engine::PlainC];

impl Engine {
    pub fn name(self) -> &'static str {
        match self {
            Engine::Phuyurik => "phuyurik",
            Engine::Second => "second",
            Engine::PlainC => "plain C",
        }
    }
}

/// Everything that a run leaves behind.
#[derive(Clone, Debug, PartialEq, Eq)]
pub struct End {
    pub state: State,
    pub retired: u64,
    pub memory: Vec<u8>,
    pub row: Vec<u8>,
}

/// Runs the image from the fresh state on a blank row. The time is the
/// processor time of the run alone: not that of copying the image.
pub fn run(engine: Engine, image: &[u8]) -> (End, Duration) {
    let (mut memory, mut row) = (image.to_vec(), vec![0; phuyurik::ROW]);
    let run = match engine {
        Engine::Phuyurik => run_phuyurik,
        Engine::Second => run_second,
        Engine::PlainC => run_plain,
    };
    let (state, retired, time) = run(&mut memory, &mut row);
    let end = End {
        state,
        retired,
        memory,
        row,
    };
    (end, time)
}

fn run_phuyurik(memory: &mut [u8], row: &mut [u8]) -> (State, u64, Duration) {
    let mut s = State::fresh();
    let mut board = Board::new(memory, row);
    let (retired, time) = timed(of_this_program, || board.run(&mut s, BUDGET));
    (s, retired.expect("sound arguments"), time)
}

fn run_second(memory: &mut [u8], row: &mut [u8]) -> (State, u64, Duration) {
    let mut s = second::State::fresh();
    let (retired, time) = timed(of_this_program, || second::run(&mut s, memory, row, BUDGET));
    let state = state(s.pc, &s.x, s.count, s.stop);
    (state, retired.expect("sound arguments"), time)
}

fn run_plain(memory: &mut [u8], row: &mut [u8]) -> (State, u64, Duration) {
    let mut s = plain::State::fresh();
    let (retired, time) = timed(of_this_program, || plain::run(&mut s, memory, row, BUDGET));
    (state(s.pc, &s.x[1..], s.count, s.stop), retired, time)
}

/// A state of the parts that every engine has; `x` is x1 and what follows it.
pub fn state(pc: u32, x: &[u32], count: u64, stop: u8) -> State {
    let mut s = State::fresh();
    (s.pc, s.count) = (pc, count);
    s.set_stop_number(stop);
    for (n, value) in (1..).zip(x) {
        s.set_reg(n, *value);
    }
    s
}
