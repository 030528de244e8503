//! The stored weight sheet (docs/weights.txt) beside the exact curve's numerator: what each number of a knot weighs, alone, on
//! the left and on the right of a gap.

use crate::reference::{numerator, Knot};

const SHEET: &str = include_str!("../../../docs/weights.txt");

/// Ordinate, slope and curvature of each minute of a gap.
type Rows = Vec<[i128; 3]>;

/// The gaps of the sheet with their rows, and what stands below them.
fn read() -> (Vec<(i128, Rows)>, Vec<&'static str>) {
    let (mut gaps, mut below): (Vec<(i128, Rows)>, Vec<&str>) = (Vec::new(), Vec::new());
    for line in SHEET.lines() {
        if let Some(heading) = line.strip_prefix("gap of ") {
            let gap = heading.strip_suffix(" minutes: minute ordinate slope curvature").expect("a heading");
            gaps.push((gap.parse().expect("a gap"), Vec::new()));
        } else if let Ok(numbers) = line.split(' ').map(str::parse).collect::<Result<Vec<i128>, _>>() {
            let (_, rows) = gaps.last_mut().expect("a heading before the first row");
            assert_eq!(numbers.len(), 4, "{line}");
            assert_eq!(numbers[0], rows.len() as i128, "{line}");
            rows.push([numbers[1], numbers[2], numbers[3]]);
        } else {
            below.push(line);
        }
    }
    (gaps, below)
}

/// A knot at minute x with 1 for its ordinate, its slope or its curvature and 0 for the others, or with none of them.
fn knot(x: i128, one: Option<usize>) -> Knot {
    let number = |place| i128::from(one == Some(place));
    Knot { x, y: number(0), m: number(1), c: number(2) }
}

#[test]
fn the_stored_sheet_has_three_gaps_and_a_sentence() {
    let (gaps, below) = read();
    assert_eq!(gaps.iter().map(|(gap, rows)| (*gap, rows.len())).collect::<Vec<_>>(), [(15, 16), (30, 31), (60, 61)]);
    assert_eq!(below.len(), 1);
    assert!(SHEET.ends_with(&format!("{}\n", below[0])));
}

#[test]
fn its_rows_are_the_weights_of_the_left_knot_and_from_the_other_side_of_the_right() {
    for (h, rows) in read().0 {
        let share = [8192, 2 * h, h * h];
        let sign = [1, -1, 1];
        for tau in 0..=h {
            for of in 0..3 {
                let left = numerator(knot(0, Some(of)), knot(h, None)).at(tau);
                let right = numerator(knot(0, None), knot(h, Some(of))).at(tau);
                assert_eq!(left, share[of] * rows[tau as usize][of], "left, {of} at {tau} of {h}");
                assert_eq!(right, sign[of] * share[of] * rows[(h - tau) as usize][of], "right, {of} at {tau} of {h}");
            }
        }
    }
}
