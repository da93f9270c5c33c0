//! Prints rows of calls on random operands, whose answers are those of nalgebra-sparse.

mod constructors;
mod conversions;
mod operands;
mod operations;
mod parts;
mod shown;
mod texts;

use operands::Random;

const HEAD: &str = "\
# Answers of the Rust crate nalgebra-sparse 0.12.0 on random operands, over i64, and of its triangular solve over f64,
# which is exact here. Written by tools/oracle with the seed 24; docs/DIFFERENCES.md says what they show.";

fn main() {
    // A call that panics has no row.
    std::panic::set_hook(Box::new(|_| {}));
    let random = &mut Random(24);
    println!("{HEAD}");
    conversions::print(random);
    parts::print(random);
    operations::print(random);
    constructors::print(random);
    texts::print(random);
}
