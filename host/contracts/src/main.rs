//! Prints docs/CONTRACTS.md.
fn main() {
    print!("{}", contracts::document());
}
