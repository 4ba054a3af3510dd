//! Prints the names of the deliberate faults, one on each line.

fn main() {
    for (name, _) in sagepliers::faults::FAULTS {
        println!("{name}");
    }
}
