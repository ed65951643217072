//! Openings on memories of other lengths than the program's.

use bench::plain::{Sizes, Stepper};

fn sizes(keys: u8) -> Sizes {
    Sizes {
        keys,
        workers: 1,
        vertex_rows: 1,
        edge_rows: 1,
        greatest_clock: 1,
    }
}

#[test]
fn one_of_each_needs_14_cells() {
    assert!(Stepper::open_on(sizes(1), vec![7; 14]).is_ok());
    assert_eq!(Stepper::open_on(sizes(1), vec![7; 13]).err(), Some(0xE2));
}

#[test]
fn keys_end_at_64() {
    assert!(Stepper::open_on(sizes(64), vec![0; 10_000]).is_ok());
    assert_eq!(
        Stepper::open_on(sizes(65), vec![0; 10_000]).err(),
        Some(0xE1)
    );
    assert_eq!(
        Stepper::open_on(sizes(0), vec![0; 10_000]).err(),
        Some(0xE1)
    );
}

#[test]
fn opening_sets_the_needed_cells_only() {
    let stepper = Stepper::open_on(sizes(1), vec![7; 16]).unwrap();
    assert_eq!(stepper.cells()[0], 1);
    assert!(stepper.cells()[1..14].iter().all(|&cell| cell == 0));
    assert_eq!(stepper.cells()[14..], [7, 7]);
}
