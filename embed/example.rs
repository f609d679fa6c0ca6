//! Calls Ravinebowl from Rust. example.c makes the same calls and prints the same lines.
mod ravinebowl;

use ravinebowl::{
    Comparison, CornerGap, Mark, NearestPoint, Refusal, ENOUGH_STEPS, MISMATCH_UNITS, RECORD_LENGTH,
};

const SQUARE: [i32; 8] = [0, 0, 4, 0, 4, 4, 0, 4];
const TRIANGLE: [i32; 6] = [0, 0, 4, 0, 0, 4];
const HALVED: [i32; 6] = [0, 0, 4, 4, 0, 4];
const CLOCKWISE: [i32; 6] = [0, 0, 0, 4, 4, 0];
const MOVED: [i32; 8] = [10, 0, 14, 0, 14, 4, 10, 4];
const STAR: [i32; 10] = [0, 3, -2, -3, 3, 1, -3, 1, 2, -3];
const WEDGE: [i32; 6] = [0, 0, 9, 0, 0, 3];
const POINTS: [i32; 14] = [4, 4, 0, 0, 2, 0, 4, 0, 0, 4, 4, 4, 1, 2];
const IN_LINE: [i32; 8] = [4, 2, 0, 0, 2, 1, 4, 2];
const OUTSIDE: [i32; 8] = [0, 0, 4, 0, 4, 16001, 0, -16001];

/// The square from record 3 on and the triangle from record 6 on, their last corner in one record. Record 0 is not read.
const RECORDS: [[i32; RECORD_LENGTH]; 7] = [
    [7, 7, 7],
    [4, 4, 4],
    [4, 0, 4],
    [0, 0, 5],
    [0, 4, 0],
    [4, 0, 1],
    [0, 0, 2],
];

/// Record 1 is followed by itself.
const RING: [[i32; RECORD_LENGTH]; 2] = [[7, 7, 7], [0, 0, 1]];

fn nearest_text(nearest: NearestPoint) -> String {
    format!(
        "{} at {}, gap {}",
        nearest.feature, nearest.point, nearest.gap
    )
}

fn worst_text(worst: CornerGap) -> String {
    format!(
        "{} {} to {}",
        worst.side,
        worst.corner,
        nearest_text(worst.nearest)
    )
}

fn shown_text(worst: Option<CornerGap>) -> String {
    worst.map_or("no worst so far".to_string(), worst_text)
}

/// A line for each outline.
fn print_sides(a: Option<CornerGap>, b: Option<CornerGap>) {
    println!("  of A: {}", shown_text(a));
    println!("  of B: {}", shown_text(b));
}

fn print_comparison(comparison: Result<Comparison, Refusal>) {
    match comparison {
        Err(refusal) => println!("{refusal}"),
        Ok(Comparison::Done {
            steps,
            answer,
            clearance,
            answer_a,
            answer_b,
        }) => {
            println!(
                "done in {steps} steps: {}, clearance {clearance}",
                worst_text(answer)
            );
            print_sides(Some(answer_a), Some(answer_b));
        }
        Ok(Comparison::Spent {
            steps,
            support_a,
            support_b,
            worst,
            worst_a,
            worst_b,
        }) => {
            let worst = shown_text(worst);
            println!("spent after {steps} steps, support corners A {support_a} and B {support_b}: {worst}");
            print_sides(worst_a, worst_b);
        }
    }
}

fn compare(a: &[i32], b: &[i32], allowance: u32) {
    print_comparison(ravinebowl::compare(a, b, allowance));
}

fn compare_records(records: &[i32], a_start: i32, b_start: i32) {
    print_comparison(ravinebowl::compare_records(
        records,
        a_start,
        b_start,
        ENOUGH_STEPS,
    ));
}

fn mismatch(a: &[i32], b: &[i32]) {
    match ravinebowl::mismatch(a, b) {
        Err(refusal) => println!("{refusal}"),
        Ok(sum) => println!("mismatch {sum}/{MISMATCH_UNITS}"),
    }
}

fn nearest_point(x: i32, y: i32, outline: &[i32]) {
    match ravinebowl::nearest_point(x, y, outline) {
        Err(refusal) => println!("{refusal}"),
        Ok(nearest) => println!("{}", nearest_text(nearest)),
    }
}

/// A word and the numbers of an outline, or the refusal.
fn print_outline(written: Result<(), Refusal>, word: &str, out: &[i32]) {
    match written {
        Err(refusal) => println!("{refusal}"),
        Ok(()) => {
            let numbers: String = out.iter().map(|number| format!(" {number}")).collect();
            println!("{word}{numbers}");
        }
    }
}

/// `out` is the list to write.
fn remove_corner(outline: &[i32], corner: usize, out: &mut [i32]) {
    let removed = ravinebowl::remove_corner(outline, corner, out);
    print_outline(removed, "remains", out);
}

/// `out` is the list to write.
fn insert_corner(outline: &[i32], place: usize, x: i32, y: i32, out: &mut [i32]) {
    let inserted = ravinebowl::insert_corner(outline, place, x, y, out);
    print_outline(inserted, "results", out);
}

/// `out` and `marks` are the lists to write.
fn convex_hull(points: &[i32], out: &mut [i32], marks: &mut [i32]) {
    let hull = ravinebowl::convex_hull(points, out, marks);
    print_outline(hull.map(|_| ()), "hull", out);
    if let Ok(count) = hull {
        let marks: Vec<String> = marks
            .iter()
            .map(|&number| Mark::from(number).to_string())
            .collect();
        println!("  corners {count}, marks: {}", marks.join(", "));
    }
}

/// A result list with one place too few: the call writes nothing. Only a call over slices can be handed one.
fn wrong_result_length() {
    let mut result = [5; ravinebowl::COMPARE_LENGTH - 1];
    let status = ravinebowl::compare_into(&SQUARE, &TRIANGLE, ENOUGH_STEPS, &mut result);
    let kept = result.iter().all(|&number| number == 5);
    println!(
        "code {}, list {}",
        status.code,
        if kept { "as it was" } else { "written" }
    );
}

fn main() {
    compare(&SQUARE, &TRIANGLE, ENOUGH_STEPS);
    compare(&SQUARE, &TRIANGLE, 4);
    compare(&SQUARE, &TRIANGLE, 3);
    compare(&SQUARE, &MOVED, ENOUGH_STEPS);
    compare(&SQUARE, &CLOCKWISE, ENOUGH_STEPS);
    compare(&CLOCKWISE, &SQUARE, 4);
    compare(&STAR, &SQUARE, ENOUGH_STEPS);
    compare(&SQUARE, &[], ENOUGH_STEPS);
    let records = RECORDS.as_flattened();
    compare_records(records, 3, 6);
    compare_records(records, 3, 0);
    compare_records(records, 3, 7);
    compare_records(&records[..records.len() - 1], 3, 6);
    compare_records(RING.as_flattened(), 1, 1);
    mismatch(&SQUARE, &TRIANGLE);
    mismatch(&CLOCKWISE, &SQUARE);
    mismatch(&SQUARE, &MOVED);
    mismatch(&SQUARE, &STAR);
    nearest_point(6, 6, &WEDGE);
    nearest_point(12, 9, &WEDGE);
    nearest_point(1, 1, &WEDGE);
    nearest_point(2, -3, &CLOCKWISE);
    nearest_point(16001, 0, &WEDGE);
    remove_corner(&SQUARE, 1, &mut [0; SQUARE.len() - 2]);
    remove_corner(&SQUARE, 4, &mut [0; SQUARE.len() - 2]);
    remove_corner(&SQUARE, 1, &mut [0; SQUARE.len()]);
    remove_corner(&CLOCKWISE, 1, &mut [0; CLOCKWISE.len() - 2]);
    insert_corner(&HALVED, 1, 4, 0, &mut [0; HALVED.len() + 2]);
    insert_corner(&TRIANGLE, 3, -1, 2, &mut [0; TRIANGLE.len() + 2]);
    insert_corner(&TRIANGLE, 4, 4, 4, &mut [0; TRIANGLE.len() + 2]);
    insert_corner(&TRIANGLE, 2, 16001, 4, &mut [0; TRIANGLE.len() + 2]);
    insert_corner(&TRIANGLE, 2, 4, 4, &mut [0; TRIANGLE.len()]);
    insert_corner(&TRIANGLE, 0, 0, 4, &mut [0; TRIANGLE.len() + 2]);
    insert_corner(&TRIANGLE, 3, 1, 1, &mut [0; TRIANGLE.len() + 2]);
    insert_corner(&CLOCKWISE, 1, -1, 2, &mut [0; CLOCKWISE.len() + 2]);
    convex_hull(&POINTS, &mut [0; POINTS.len()], &mut [0; POINTS.len() / 2]);
    convex_hull(
        &CLOCKWISE,
        &mut [0; CLOCKWISE.len()],
        &mut [0; CLOCKWISE.len() / 2],
    );
    convex_hull(
        &IN_LINE,
        &mut [0; IN_LINE.len()],
        &mut [0; IN_LINE.len() / 2],
    );
    convex_hull(&[], &mut [], &mut []);
    convex_hull(
        &OUTSIDE,
        &mut [0; OUTSIDE.len()],
        &mut [0; OUTSIDE.len() / 2],
    );
    convex_hull(
        &POINTS,
        &mut [0; POINTS.len() - 1],
        &mut [0; POINTS.len() / 2],
    );
    convex_hull(
        &POINTS,
        &mut [0; POINTS.len()],
        &mut [0; POINTS.len() / 2 - 1],
    );
    wrong_result_length();
}
