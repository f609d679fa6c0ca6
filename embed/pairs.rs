//! Compares the generated pairs of crates/pairs through the Rust wrapper, with several allowances each, and prints a line for each
//! comparison: the lines of crates/pairs/stdout, which a program written apart has made. The input is described in crates/pairs/src/main.rt.
//! Comparing the corners as chains of linked records must give the same, but for the refusals 1 and 3, which a chain does not get. Where
//! both outlines are accepted, the convex hull of the corners of each must be that outline, counterclockwise from its lowest corner.
#[allow(dead_code)] // comparing and the convex hull alone are called here
mod ravinebowl;

use ravinebowl::{Comparison, CornerGap, Mark, Refusal, RECORD_LENGTH};
use std::io::Read;

/// The next list of the input: its length and its numbers. None at the end.
fn list<T: std::str::FromStr>(numbers: &mut std::str::SplitWhitespace) -> Option<Vec<T>> {
    let length = numbers.next()?.parse().ok()?;
    (0..length).map(|_| numbers.next()?.parse().ok()).collect()
}

fn gap_text(of: CornerGap) -> String {
    let nearest = of.nearest;
    format!(
        "{} {} {} {} {}",
        of.side, of.corner, nearest.feature, nearest.gap, nearest.point
    )
}

fn shown_text(of: Option<CornerGap>) -> String {
    of.map_or("none".to_string(), gap_text)
}

fn line(comparison: Result<Comparison, Refusal>) -> String {
    match comparison {
        Err(refusal) => refusal.to_string(),
        Ok(Comparison::Done {
            steps,
            answer,
            clearance,
            answer_a,
            answer_b,
        }) => {
            let (answer, a, b) = (gap_text(answer), gap_text(answer_a), gap_text(answer_b));
            format!("done {steps} {answer} {clearance} {a} {b}")
        }
        Ok(Comparison::Spent {
            steps,
            support_a,
            support_b,
            worst,
            worst_a,
            worst_b,
        }) => {
            let (worst, a, b) = (shown_text(worst), shown_text(worst_a), shown_text(worst_b));
            format!("spent {steps} {support_a} {support_b} {worst} {a} {b}")
        }
    }
}

/// Adds the corners of an outline to the records, the last one first, so that each is followed by the one before it. Gives the start.
fn add_chain(records: &mut Vec<i32>, outline: &[i32]) -> i32 {
    let mut next = 0;
    for corner in outline.chunks_exact(2).rev() {
        let index = records.len() / RECORD_LENGTH;
        records.extend([corner[0], corner[1], next]);
        next = index as i32;
    }
    next
}

/// What comparing the outlines as chains of linked records gives.
fn compare_chains(a: &[i32], b: &[i32], allowance: u32) -> Result<Comparison, Refusal> {
    let mut records = vec![7; RECORD_LENGTH];
    let b_start = add_chain(&mut records, b);
    let a_start = add_chain(&mut records, a);
    ravinebowl::compare_records(&records, a_start, b_start, allowance)
}

/// The corners of an accepted outline, counterclockwise from the one of least y, of equals the one of least x: corner 2 is strictly left
/// of edge 0 exactly if the list is counterclockwise.
fn from_lowest(outline: &[i32]) -> Vec<[i32; 2]> {
    let mut corners: Vec<[i32; 2]> = outline.chunks_exact(2).map(|c| [c[0], c[1]]).collect();
    let [p, q, v] = [corners[0], corners[1], corners[2]];
    if (q[0] - p[0]) * (v[1] - p[1]) < (q[1] - p[1]) * (v[0] - p[0]) {
        corners.reverse();
    }
    let lowest = (0..corners.len()).min_by_key(|&i| (corners[i][1], corners[i][0]));
    corners.rotate_left(lowest.unwrap_or(0));
    corners
}

/// Whether the convex hull of the corners of an accepted outline is that outline, and each corner has the mark of its place in the hull.
fn is_own_hull(outline: &[i32]) -> bool {
    let corners = from_lowest(outline);
    let mut out = vec![0; outline.len()];
    let mut marks = vec![0; corners.len()];
    let hull = ravinebowl::convex_hull(outline, &mut out, &mut marks);
    let is_marked = |(corner, &mark): (&[i32], &i32)| match Mark::from(mark) {
        Mark::Corner(i) => corners.get(i).is_some_and(|held| held == corner),
        _ => false,
    };
    hull == Ok(corners.len())
        && out == corners.as_flattened()
        && outline.chunks_exact(2).zip(&marks).all(is_marked)
}

fn main() {
    let mut text = String::new();
    if let Err(error) = std::io::stdin().read_to_string(&mut text) {
        eprintln!("{error}");
        std::process::exit(1);
    }
    let mut numbers = text.split_whitespace();
    while let (Some(a), Some(b), Some(allowances)) =
        (list(&mut numbers), list(&mut numbers), list(&mut numbers))
    {
        if ravinebowl::compare(&a, &b, 0).is_ok() && !(is_own_hull(&a) && is_own_hull(&b)) {
            eprintln!("the convex hull of {a:?} or of {b:?} is another outline");
            std::process::exit(1);
        }
        for allowance in allowances {
            let comparison = ravinebowl::compare(&a, &b, allowance);
            println!("{}", line(comparison));
            let is_of_lists = matches!(comparison, Err(Refusal { number: 1 | 3, .. }));
            if !is_of_lists && compare_chains(&a, &b, allowance) != comparison {
                eprintln!("as chains {a:?} and {b:?} compare otherwise, allowance {allowance}");
                std::process::exit(1);
            }
        }
    }
}
