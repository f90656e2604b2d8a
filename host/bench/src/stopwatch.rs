//! Processor time, so that other programs on the machine disturb a measurement little.
use std::time::Duration;

extern "C" {
    fn processor_microseconds() -> u64;
    fn ended_children_user_microseconds() -> u64;
}

/// The work's answer and the time that the clock went on by: never zero, so that it can be divided by.
pub fn timed<T>(clock: fn() -> u64, work: impl FnOnce() -> T) -> (T, Duration) {
    let start = clock();
    let answer = work();
    (answer, Duration::from_micros((clock() - start).max(1)))
}

/// Microseconds of this program.
pub fn of_this_program() -> u64 {
    // SAFETY: the function has no arguments and touches nothing of ours.
    unsafe { processor_microseconds() }
}

/// Microseconds of user time of the programs that this one started and that have ended.
pub fn of_ended_children() -> u64 {
    // SAFETY: the function has no arguments and touches nothing of ours.
    unsafe { ended_children_user_microseconds() }
}

#[cfg(test)]
mod tests {
    use super::*;
    use std::process::Command;

    #[test]
    fn a_child_that_counts_takes_its_time() {
        let count = "i=0; while [ $i -lt 200000 ]; do i=$((i+1)); done";
        let run = || Command::new("sh").args(["-c", count]).status();
        let (status, time) = timed(of_ended_children, run);
        assert!(status.expect("a shell").success());
        assert!(time > Duration::from_millis(5), "{time:?}");
    }
}
