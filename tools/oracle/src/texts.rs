//! Matrix Market texts, read and written, and JSON.

use crate::operands::Random;
use crate::shown::{row, Shown};
use nalgebra_sparse::io::{load_coo_from_matrix_market_str, save_to_matrix_market_str};
use nalgebra_sparse::CooMatrix;

const SYMMETRIES: [&str; 3] = ["general", "symmetric", "skew-symmetric"];

pub fn print(random: &mut Random) {
    println!("\n# Matrix Market texts. Of an error the kind is compared.");
    println!("over rows i32 i64 W64\n");
    for at in 0..18 {
        print_coordinates(random, at);
    }
    for at in 0..9 {
        print_array(random, at);
    }
    println!("over rows i64 W64");
    for _ in 0..2 {
        let (rows, cols) = (random.size(), random.size());
        let (list, grid) = (random.list(rows, cols), random.grid(rows, cols));
        row(format!("write-whole {}", grid.draw()), in_a_row(&save_to_matrix_market_str(&grid.csr())));
        row(format!("write-list {}", list.shown()), after_head(&save_to_matrix_market_str(&list)));
    }
    println!("over columns i64 W64");
    for _ in 0..2 {
        let (rows, cols) = (random.size(), random.size());
        let grid = random.grid(rows, cols);
        row(format!("write-whole {}", grid.draw()), in_a_row(&save_to_matrix_market_str(&grid.csc())));
    }
    println!("\n# JSON.");
    println!("over rows W32\n");
    for _ in 0..2 {
        print_json(random);
    }
}

/// The lines of a text as a row writes them.
fn in_a_row(text: &str) -> String {
    text.lines().map(|line| format!("{line} |")).collect::<Vec<_>>().join(" ")
}

/// The same of a written text, as the text that `read` is given.
fn after_head(text: &str) -> String {
    let lines = text.lines().enumerate().filter(|(at, _)| *at != 1).map(|(_, line)| line);
    let shown = in_a_row(&lines.collect::<Vec<_>>().join("\n"));
    shown.strip_prefix("%%matrixmarket matrix ").expect("a header").to_string()
}

fn print_read(lines: &[String]) {
    let text = lines.join("\n");
    let read = load_coo_from_matrix_market_str::<i64>(&format!("%%MatrixMarket matrix {text}\n"));
    row(format!("read {} |", lines.join(" | ")), read.shown());
}

/// Prints a text of coordinates, with a fault in two of three texts: an index that is zero or past the sizes, another
/// number of entries, or an entry that its symmetry does not admit.
fn print_coordinates(random: &mut Random, at: usize) {
    let (symmetry, count) = (SYMMETRIES[at % 3], random.size());
    let (rows, cols) = if at % 3 == 0 { (random.size(), random.size()) } else { (4, 4 + usize::from(at == 4)) };
    let said = count + usize::from(at % 6 == 5);
    let mut lines = vec![format!("coordinate integer {symmetry}"), format!("{rows} {cols} {said}")];
    for entry in 0..count {
        let (mut i, mut j) = (random.below(rows), random.below(cols));
        if at % 3 != 0 && at < 9 {
            (i, j) = (i.max(j), i.min(j));
        }
        if at % 3 == 2 && i == j && at != 8 {
            (i, j) = (3, random.below(3));
        }
        let first = match (at, entry) {
            (6, 0) => 0,
            (3 | 9 | 15, 0) => rows + 1,
            _ => i + 1,
        };
        lines.push(format!("{first} {} {}", j + 1, random.value()));
    }
    print_read(&lines);
}

/// Prints a text of an array, with a line too much or too little in one of three texts.
fn print_array(random: &mut Random, at: usize) {
    let symmetry = SYMMETRIES[at % 3];
    let (rows, cols) = if at % 3 == 0 { (random.size(), random.size()) } else { (3, 3) };
    let count = [rows * cols, 6, 3][at % 3] + [0, 0, 1][at / 3];
    let mut lines = vec![format!("array integer {symmetry}"), format!("{rows} {cols}")];
    lines.extend(random.values(count).iter().map(|value| value.to_string()));
    print_read(&lines);
}

fn print_json(random: &mut Random) {
    let (rows, cols) = (random.size(), random.size());
    let (list, grid) = (random.list(rows, cols), random.grid(rows, cols));
    let text = json(&list);
    row(format!("to-json coo {}", list.shown()), &text);
    let read: CooMatrix<i64> = serde_json::from_str(&text).expect("the text that was written");
    row(format!("from-json coo {text}"), read.shown());
    row(format!("to-json csr {}", grid.draw()), json(&grid.csr()));
    row(format!("to-json csc {}", grid.draw()), json(&grid.csc()));
    row(format!("to-json pattern {}", grid.draw_places()), json(grid.csr().pattern()));
}

fn json<T: serde::Serialize>(value: &T) -> String {
    serde_json::to_string(value).expect("numbers alone")
}
