//! Ravinebowl from Rust: a safe wrapper of the C functions, which ravinebowl.h describes. No function panics, whatever it is handed.
//! Comparing, the mismatch sum and the nearest point take outlines of either orientation, removing and inserting a corner counterclockwise
//! ones alone. The numbers of corners and edges are those of the list as given: edge i joins corner i to the following one, whichever way
//! round the list goes; only 5 and 6 of the result of inserting a corner have their places in that result. Comparing takes outlines from
//! chains of linked records too, whose corners are numbered along the chain. The convex hull takes points in any order, whose marks name
//! corners of the hull.

use std::fmt;

/// What a C function returns: whether it answered and, if not, why.
#[repr(C)]
#[derive(Clone, Copy, Debug, PartialEq, Eq)]
pub struct Status {
    /// 0: it answered. 1 to 12: the number of a refusal. 100: the result list has the wrong length.
    pub code: u32,
    /// 0: none. 1: A. 2: B.
    pub side: u32,
    /// How many place numbers there are; then the numbers, 0 where there is none.
    pub places: u32,
    pub first: usize,
    pub second: usize,
}

#[link(name = "ravinebowl", kind = "static")]
extern "C" {
    fn ravinebowl_compare(
        a: *const i32,
        a_length: usize,
        b: *const i32,
        b_length: usize,
        allowance: u32,
        result: *mut i64,
        result_length: usize,
    ) -> Status;
    fn ravinebowl_compare_records(
        records: *const i32,
        records_length: usize,
        a_start: i32,
        b_start: i32,
        allowance: u32,
        result: *mut i64,
        result_length: usize,
    ) -> Status;
    fn ravinebowl_mismatch(
        a: *const i32,
        a_length: usize,
        b: *const i32,
        b_length: usize,
        result: *mut i64,
        result_length: usize,
    ) -> Status;
    fn ravinebowl_nearest_point(
        x: i32,
        y: i32,
        outline: *const i32,
        outline_length: usize,
        result: *mut i64,
        result_length: usize,
    ) -> Status;
    fn ravinebowl_remove_corner(
        outline: *const i32,
        outline_length: usize,
        corner: usize,
        out: *mut i32,
        out_length: usize,
    ) -> Status;
    fn ravinebowl_insert_corner(
        outline: *const i32,
        outline_length: usize,
        place: usize,
        x: i32,
        y: i32,
        out: *mut i32,
        out_length: usize,
    ) -> Status;
    fn ravinebowl_convex_hull(
        points: *const i32,
        points_length: usize,
        out: *mut i32,
        out_length: usize,
        marks: *mut i32,
        marks_length: usize,
        result: *mut i64,
        result_length: usize,
    ) -> Status;
}

/// The lengths of the result lists.
pub const COMPARE_LENGTH: usize = 32;
pub const MISMATCH_LENGTH: usize = 1;
pub const NEAREST_LENGTH: usize = 7;
pub const CONVEX_HULL_LENGTH: usize = 1;

/// Where the numbers of the worst corner begin in the result list of a comparison, of A's and of B's.
const WORST_PLACE: usize = 4;
const WORST_A_PLACE: usize = 14;
const WORST_B_PLACE: usize = 23;

/// Where the clearance is.
const CLEARANCE_PLACE: usize = 13;

/// A number of steps that is enough for any comparison.
pub const ENOUGH_STEPS: u32 = 512;

/// How many numbers a record has.
pub const RECORD_LENGTH: usize = 3;

/// How many units of a mismatch sum make a square millimetre.
pub const MISMATCH_UNITS: u64 = 1024;

/// The mark of a point that repeats an earlier one.
const MARK_REPEATS: i32 = -1;

/// One of the two outlines that are compared.
#[derive(Clone, Copy, Debug, PartialEq, Eq)]
pub enum Side {
    A,
    B,
}

/// The nearest feature of an outline. `Edge(i)`: strictly between the ends of edge i.
#[derive(Clone, Copy, Debug, PartialEq, Eq)]
pub enum Feature {
    Within,
    Corner(usize),
    Edge(usize),
}

/// An exact fraction, not reduced.
#[derive(Clone, Copy, Debug, PartialEq, Eq)]
pub struct Fraction {
    pub upper: u64,
    pub lower: u64,
}

/// A point at x / lower and y / lower.
#[derive(Clone, Copy, Debug, PartialEq, Eq)]
pub struct Point {
    pub x: i64,
    pub y: i64,
    pub lower: u64,
}

/// The nearest feature, the gap (the squared distance) and the nearest point.
#[derive(Clone, Copy, Debug, PartialEq, Eq)]
pub struct NearestPoint {
    pub feature: Feature,
    pub gap: Fraction,
    pub point: Point,
}

/// A corner of one outline with what is nearest to it in the other.
#[derive(Clone, Copy, Debug, PartialEq, Eq)]
pub struct CornerGap {
    pub side: Side,
    pub corner: usize,
    pub nearest: NearestPoint,
}

/// What comparing gives. Done: the corner of greatest gap, and the clearance, the smallest whole number of millimetres whose
/// square is not below that gap, at most 45,255; and of each outline the corner of greatest gap, of equal ones that of lowest
/// number, which is its corner 0, within, where all its gaps are 0. Spent: the allowance was below the number of edges; the
/// support corners and the worst so far, if there is one, of both outlines and of each.
#[derive(Clone, Copy, Debug, PartialEq, Eq)]
pub enum Comparison {
    Done {
        steps: u32,
        answer: CornerGap,
        clearance: u64,
        answer_a: CornerGap,
        answer_b: CornerGap,
    },
    Spent {
        steps: u32,
        support_a: usize,
        support_b: usize,
        worst: Option<CornerGap>,
        worst_a: Option<CornerGap>,
        worst_b: Option<CornerGap>,
    },
}

/// What a point is to the convex hull. `Repeats`: it repeats an earlier point. `Corner(i)`: corner i of the hull. `NoCorner`: it is
/// inside the hull, or on an edge between its ends.
#[derive(Clone, Copy, Debug, PartialEq, Eq)]
pub enum Mark {
    Repeats,
    Corner(usize),
    NoCorner,
}

/// The place of a refusal. `At`: a corner or a point; of 11 and 12, how many corners of the chain are read.
#[derive(Clone, Copy, Debug, PartialEq, Eq)]
pub enum Place {
    Nowhere,
    At(usize),
    EdgeAndCorner(usize, usize),
}

/// Why a call refused: the numbers are in ravinebowl.h. There is a side where there are two outlines. 6 is, in removing and inserting
/// a corner, for a list that is not counterclockwise; in the other calls for one that fits neither orientation.
#[derive(Clone, Copy, Debug, PartialEq, Eq)]
pub struct Refusal {
    pub number: u32,
    pub side: Option<Side>,
    pub place: Place,
}

impl fmt::Display for Side {
    fn fmt(&self, out: &mut fmt::Formatter) -> fmt::Result {
        match self {
            Side::A => write!(out, "A"),
            Side::B => write!(out, "B"),
        }
    }
}

impl fmt::Display for Feature {
    fn fmt(&self, out: &mut fmt::Formatter) -> fmt::Result {
        match self {
            Feature::Within => write!(out, "within"),
            Feature::Corner(i) => write!(out, "corner {i}"),
            Feature::Edge(i) => write!(out, "edge {i}"),
        }
    }
}

impl fmt::Display for Mark {
    fn fmt(&self, out: &mut fmt::Formatter) -> fmt::Result {
        match self {
            Mark::Repeats => write!(out, "repeated"),
            Mark::Corner(i) => write!(out, "corner {i}"),
            Mark::NoCorner => write!(out, "no corner"),
        }
    }
}

impl fmt::Display for Fraction {
    fn fmt(&self, out: &mut fmt::Formatter) -> fmt::Result {
        write!(out, "{}/{}", self.upper, self.lower)
    }
}

impl fmt::Display for Point {
    fn fmt(&self, out: &mut fmt::Formatter) -> fmt::Result {
        write!(out, "{}/{d} {}/{d}", self.x, self.y, d = self.lower)
    }
}

/// As in `refused A 6 0 3`: the side, the number and the place's numbers, if any.
impl fmt::Display for Refusal {
    fn fmt(&self, out: &mut fmt::Formatter) -> fmt::Result {
        write!(out, "refused ")?;
        if let Some(side) = self.side {
            write!(out, "{side} ")?;
        }
        match self.place {
            Place::Nowhere => write!(out, "{}", self.number),
            Place::At(i) => write!(out, "{} {i}", self.number),
            Place::EdgeAndCorner(e, c) => write!(out, "{} {e} {c}", self.number),
        }
    }
}

impl std::error::Error for Refusal {}

/// The mark that a number of the list of marks is.
impl From<i32> for Mark {
    fn from(number: i32) -> Mark {
        match number {
            MARK_REPEATS => Mark::Repeats,
            0.. => Mark::Corner(number as usize),
            _ => Mark::NoCorner,
        }
    }
}

fn side(number: i64) -> Option<Side> {
    match number {
        1 => Some(Side::A),
        2 => Some(Side::B),
        _ => None,
    }
}

impl Status {
    /// `Ok` where the call answered. A result list of the wrong length counts as a refusal with the number 100.
    pub fn answered(self) -> Result<(), Refusal> {
        if self.code == 0 {
            return Ok(());
        }
        let place = match self.places {
            0 => Place::Nowhere,
            1 => Place::At(self.first),
            _ => Place::EdgeAndCorner(self.first, self.second),
        };
        Err(Refusal {
            number: self.code,
            side: side(self.side.into()),
            place,
        })
    }
}

/// As `compare`, with the numbers written to `result`, whose length must be `COMPARE_LENGTH`; ravinebowl.h names its places.
pub fn compare_into(a: &[i32], b: &[i32], allowance: u32, result: &mut [i64]) -> Status {
    // SAFETY: each pointer is good for its length, no list that is written overlaps another, and none is kept.
    unsafe {
        ravinebowl_compare(
            a.as_ptr(),
            a.len(),
            b.as_ptr(),
            b.len(),
            allowance,
            result.as_mut_ptr(),
            result.len(),
        )
    }
}

/// As `compare_records`, with the numbers written to `result`, as those of `compare_into`.
pub fn compare_records_into(
    records: &[i32],
    a_start: i32,
    b_start: i32,
    allowance: u32,
    result: &mut [i64],
) -> Status {
    // SAFETY: as above.
    unsafe {
        ravinebowl_compare_records(
            records.as_ptr(),
            records.len(),
            a_start,
            b_start,
            allowance,
            result.as_mut_ptr(),
            result.len(),
        )
    }
}

/// As `mismatch`, with the number written to `result`, whose length must be `MISMATCH_LENGTH`.
pub fn mismatch_into(a: &[i32], b: &[i32], result: &mut [i64]) -> Status {
    // SAFETY: as above.
    unsafe {
        ravinebowl_mismatch(
            a.as_ptr(),
            a.len(),
            b.as_ptr(),
            b.len(),
            result.as_mut_ptr(),
            result.len(),
        )
    }
}

/// As `nearest_point`, with the numbers written to `result`, whose length must be `NEAREST_LENGTH`.
pub fn nearest_point_into(x: i32, y: i32, outline: &[i32], result: &mut [i64]) -> Status {
    // SAFETY: as above.
    unsafe {
        ravinebowl_nearest_point(
            x,
            y,
            outline.as_ptr(),
            outline.len(),
            result.as_mut_ptr(),
            result.len(),
        )
    }
}

/// As `convex_hull`, with the number of corners written to `result`, whose length must be `CONVEX_HULL_LENGTH`.
pub fn convex_hull_into(
    points: &[i32],
    out: &mut [i32],
    marks: &mut [i32],
    result: &mut [i64],
) -> Status {
    // SAFETY: as above.
    unsafe {
        ravinebowl_convex_hull(
            points.as_ptr(),
            points.len(),
            out.as_mut_ptr(),
            out.len(),
            marks.as_mut_ptr(),
            marks.len(),
            result.as_mut_ptr(),
            result.len(),
        )
    }
}

/// The nearest point that the numbers of a result list give.
fn nearest(numbers: [i64; NEAREST_LENGTH]) -> NearestPoint {
    let [kind, number, upper, lower, x, y, d] = numbers;
    NearestPoint {
        feature: match kind {
            0 => Feature::Within,
            1 => Feature::Corner(number as usize),
            _ => Feature::Edge(number as usize),
        },
        gap: Fraction {
            upper: upper as u64,
            lower: lower as u64,
        },
        point: Point {
            x,
            y,
            lower: d as u64,
        },
    }
}

/// The corner that the nine numbers from a place of a result list on give, or none.
fn corner_gap(result: &[i64; COMPARE_LENGTH], place: usize) -> Option<CornerGap> {
    let at = |i: usize| result[place + i];
    side(at(0)).map(|side| CornerGap {
        side,
        corner: at(1) as usize,
        nearest: nearest([at(2), at(3), at(4), at(5), at(6), at(7), at(8)]),
    })
}

/// The comparison that the numbers of a result list give.
fn comparison(result: &[i64; COMPARE_LENGTH]) -> Comparison {
    let [kind, steps, support_a, support_b, ..] = *result;
    let steps = steps as u32;
    let worst = corner_gap(result, WORST_PLACE);
    let worst_a = corner_gap(result, WORST_A_PLACE);
    let worst_b = corner_gap(result, WORST_B_PLACE);
    match (kind, worst, worst_a, worst_b) {
        (0, Some(answer), Some(answer_a), Some(answer_b)) => Comparison::Done {
            steps,
            answer,
            clearance: result[CLEARANCE_PLACE] as u64,
            answer_a,
            answer_b,
        },
        _ => Comparison::Spent {
            steps,
            support_a: support_a as usize,
            support_b: support_b as usize,
            worst,
            worst_a,
            worst_b,
        },
    }
}

/// Compares two outlines, each of either orientation, in at most `allowance` steps.
pub fn compare(a: &[i32], b: &[i32], allowance: u32) -> Result<Comparison, Refusal> {
    let mut result = [0; COMPARE_LENGTH];
    compare_into(a, b, allowance, &mut result).answered()?;
    Ok(comparison(&result))
}

/// Compares, as `compare` does, the outlines of two chains of linked records, which start at the indexes `a_start` and `b_start`. `records`
/// has `RECORD_LENGTH` numbers for each record: x, y and the index of the next. Record 0 is never a corner and index 0 ends a chain. The
/// chains may share records or be the same.
pub fn compare_records(
    records: &[i32],
    a_start: i32,
    b_start: i32,
    allowance: u32,
) -> Result<Comparison, Refusal> {
    let mut result = [0; COMPARE_LENGTH];
    compare_records_into(records, a_start, b_start, allowance, &mut result).answered()?;
    Ok(comparison(&result))
}

/// The mismatch sum of two outlines, each of either orientation: over every corner of each its gap to the other, brought down to a
/// whole number of units of 1/1024 square millimetre, and those added. At most 1,073,741,824,000,000.
pub fn mismatch(a: &[i32], b: &[i32]) -> Result<u64, Refusal> {
    let mut result = [0; MISMATCH_LENGTH];
    mismatch_into(a, b, &mut result).answered()?;
    let [sum] = result;
    Ok(sum as u64)
}

/// Finds the nearest point of an outline, of either orientation, to the point (x, y).
pub fn nearest_point(x: i32, y: i32, outline: &[i32]) -> Result<NearestPoint, Refusal> {
    let mut result = [0; NEAREST_LENGTH];
    nearest_point_into(x, y, outline, &mut result).answered()?;
    Ok(nearest(result))
}

/// Removes a corner of a counterclockwise outline and writes the others to `out`, which must be exactly as long as what remains; a
/// refusal leaves it as it was.
pub fn remove_corner(outline: &[i32], corner: usize, out: &mut [i32]) -> Result<(), Refusal> {
    // SAFETY: as above.
    let status = unsafe {
        ravinebowl_remove_corner(
            outline.as_ptr(),
            outline.len(),
            corner,
            out.as_mut_ptr(),
            out.len(),
        )
    };
    status.answered()
}

/// Inserts the point (x, y) as corner `place` of a counterclockwise outline and writes the corners of the result to `out`, which must be
/// exactly as long as that; a refusal leaves it as it was. `place` is from 0 to the number of corners: the point comes before what was
/// corner `place`, or after the last corner. Refusals 5 and 6 of the result have places in the result; they are of the result exactly if
/// the outline is accepted.
pub fn insert_corner(
    outline: &[i32],
    place: usize,
    x: i32,
    y: i32,
    out: &mut [i32],
) -> Result<(), Refusal> {
    // SAFETY: as above.
    let status = unsafe {
        ravinebowl_insert_corner(
            outline.as_ptr(),
            outline.len(),
            place,
            x,
            y,
            out.as_mut_ptr(),
            out.len(),
        )
    };
    status.answered()
}

/// Finds the convex hull of up to 256 points, a list of their coordinates in any order, with repeats or without, and gives the number of
/// its corners. Their coordinates are written to `out`, counterclockwise from the corner of least y, of equals the one of least x, with
/// zeros after them; `out` must be as long as `points`. What each point is to the hull is written to `marks`, which must be half as long:
/// `Mark::from` reads its numbers. A refusal leaves both as they were.
pub fn convex_hull(points: &[i32], out: &mut [i32], marks: &mut [i32]) -> Result<usize, Refusal> {
    let mut result = [0; CONVEX_HULL_LENGTH];
    convex_hull_into(points, out, marks, &mut result).answered()?;
    let [count] = result;
    Ok(count as usize)
}
