//! Lookups alone, in tables of 1 to 4,096 rows: by halves, as the library makes them, and with the rows gone through in
//! turn. Both are proved to find the same; they are linked from the archive that `rt lib` writes in crates/lookups.

use crate::{made, middle, turn, ROUNDS};
use std::hint::black_box;

extern "C" {
    fn lookups_by_halves(table: *const u8, length: usize, wanted: *const u64, count: usize) -> usize;
    fn lookups_in_turn(table: *const u8, length: usize, wanted: *const u64, count: usize) -> usize;
}

type Counted = unsafe extern "C" fn(*const u8, usize, *const u64, usize) -> usize;

/// How many numbers are sought behind one check of the table.
const SOUGHT: usize = 4096;

/// How many of the numbers a table has. Each call checks the table once.
fn held(by: Counted, table: &[u8], wanted: &[u64]) -> usize {
    // SAFETY: the call asks nothing but that its slices are valid.
    unsafe { by(table.as_ptr(), table.len(), wanted.as_ptr(), wanted.len()) }
}

/// Numbers of a table's rows, each as likely as another, in no order; the same in each run.
fn in_no_order(rows: usize) -> Vec<u64> {
    let mut state = 0x2545_F491_4F6C_DD1D_u64;
    let mut next = || {
        state ^= state << 13;
        state ^= state >> 7;
        state ^= state << 17;
        state
    };
    (0..SOUGHT).map(|_| made::FIRST_NUMBER + next() % rows as u64).collect()
}

/// Numbers of a table's rows from the first to the last, each as often as another.
fn rising(rows: usize) -> Vec<u64> {
    (0..SOUGHT).map(|i| made::FIRST_NUMBER + (i * rows / SOUGHT) as u64).collect()
}

/// One turn: a call that seeks these numbers behind a check of the table.
fn call(by: Counted, table: &[u8], wanted: &[u64]) -> f64 {
    turn(|| { black_box(held(by, black_box(table), black_box(wanted))); })
}

/// The middle times of a check of the table, and of one lookup by halves and in turn.
fn times(table: &[u8], wanted: &[u64]) -> [f64; 3] {
    for by in [lookups_by_halves, lookups_in_turn] {
        assert_eq!(held(by, table, wanted), SOUGHT, "a number is not found");
    }
    let mut all = [const { Vec::new() }; 3];
    for _ in 0..ROUNDS {
        let check = call(lookups_by_halves, table, &[]);
        all[0].push(check);
        all[1].push((call(lookups_by_halves, table, wanted) - check) / SOUGHT as f64);
        all[2].push((call(lookups_in_turn, table, wanted) - check) / SOUGHT as f64);
    }
    all.map(middle)
}

/// The check and the lookups as rows grow. The check is made once, by the way into a table; no lookup makes it again.
pub fn report() {
    println!(
        "\n{:10} {:>9} {:>6} {:>32} {:>31}",
        "lookups", "check ns", "a row", "in no order: halves, in turn", "rising: halves, in turn"
    );
    for rows in (0..12).map(|k| 1 << k).chain([4000, 4096]) {
        let table = made::rows(rows);
        let [check, halves, in_turn] = times(&table, &in_no_order(rows));
        let [_, halves_rising, in_turn_rising] = times(&table, &rising(rows));
        print!("{:10} {check:9.1} {:6.2} ", format!("{rows} rows"), check / rows as f64);
        for [halves, in_turn] in [[halves, in_turn], [halves_rising, in_turn_rising]] {
            print!(" {halves:9.2} {in_turn:10.2} {:8.2} ", halves / in_turn);
        }
        println!();
    }
}
