//! Points along the curve of an edge, by the wrappers and by the C functions.

use tangents_host::{curve_at, curve_points, Control, CurvePoint, Refused};

extern "C" {
    fn tangents_curve_at(
        controls: *const f64, controls_len: usize, x: f64, point: *mut f64, point_len: usize, answer: *mut usize, answer_len: usize,
    );
    fn tangents_curve_points(
        controls: *const f64, controls_len: usize, count: usize, points: *mut f64, points_len: usize, answer: *mut usize, answer_len: usize,
    );
}

/// From 0 to 12 along x.
const STRAIGHT: [Control; 4] = [[0.0, 0.0, 0.0, 1.0], [4.0, 0.0, 0.0, 1.0], [8.0, 0.0, 0.0, 1.0], [12.0, 0.0, 0.0, 1.0]];

/// From (1, 0, 0) up and over to (0, 1, 2), with the weight 1/2 between.
const BENT: [Control; 4] = [[1.0, 0.0, 0.0, 1.0], [0.5, 0.5, 0.5, 0.5], [0.25, 0.5, 1.0, 0.5], [0.0, 1.0, 2.0, 1.0]];

const NO_PARAMETERS: [f64; 6] = [f64::NAN, -5e-324, -1.0, 1.0 + f64::EPSILON, f64::INFINITY, f64::NEG_INFINITY];

/// A list with a number of its own in each place.
fn lent(room: usize) -> Vec<f64> {
    (0..room).map(|i| i as f64 + 0.1).collect()
}

/// The points of a list that is accepted.
fn points(controls: &[Control; 4], count: usize) -> Vec<[f64; 3]> {
    let mut list = lent(3 * count);
    assert_eq!(curve_points(controls, count, &mut list), Ok(()));
    list.chunks_exact(3).map(|p| [p[0], p[1], p[2]]).collect()
}

/// The number of a refused list, which has to stay as it was lent, and the place 0.
fn list_refused(count: usize, room: usize) -> usize {
    let mut list = lent(room);
    let refused = curve_points(&BENT, count, &mut list).expect_err("a refusal");
    assert_eq!((refused.place, list), (0, lent(room)));
    refused.number
}

/// The answer of the C function for one point with so many control numbers and places. Where it refuses, the list has to stay as it was lent.
fn raw_point(numbers: usize, x: f64, room: usize) -> [usize; 4] {
    let (controls, mut point, mut answer) = (lent(numbers), lent(room), [7; 4]);
    // SAFETY: each pointer and length are those of one list of this function's own.
    unsafe { tangents_curve_at(controls.as_ptr(), numbers, x, point.as_mut_ptr(), room, answer.as_mut_ptr(), 4) };
    assert_eq!(answer[0] != 0, point == lent(room));
    answer
}

/// The same for a list of points.
fn raw_points(numbers: usize, count: usize, room: usize) -> [usize; 4] {
    let (controls, mut points, mut answer) = (lent(numbers), lent(room), [7; 4]);
    // SAFETY: as in `raw_point`.
    unsafe { tangents_curve_points(controls.as_ptr(), numbers, count, points.as_mut_ptr(), room, answer.as_mut_ptr(), 4) };
    assert_eq!(answer[0] != 0, points == lent(room));
    answer
}

#[test]
fn straight_edge_has_points_on_its_line() {
    assert_eq!(points(&STRAIGHT, 5), [0.0, 3.0, 6.0, 9.0, 12.0].map(|x| [x, 0.0, 0.0]));
    for (x, at) in [(0.0, 0.0), (0.25, 3.0), (0.5, 6.0), (1.0, 12.0)] {
        assert_eq!(curve_at(&STRAIGHT, x), Ok(CurvePoint { position: [at, 0.0, 0.0], direction: [1.0, 0.0, 0.0] }));
    }
}

#[test]
fn curve_goes_from_end_to_end() {
    for count in [2, 3, 17, 256] {
        let points = points(&BENT, count);
        assert_eq!((points[0], points[count - 1]), ([1.0, 0.0, 0.0], [0.0, 1.0, 2.0]));
    }
    // halfway: a sum of the numerators and one of the weights, 1 3 3 1 eighths each
    assert_eq!(points(&BENT, 3)[1], [3.25 / 5.0, 4.0 / 5.0, 6.5 / 5.0]);
    let up = curve_at(&BENT, 0.0).expect("accepted").direction;
    assert_eq!(up, [0.0, 1.0 / 2f64.sqrt(), 1.0 / 2f64.sqrt()]);
}

#[test]
fn one_point_is_that_of_the_list() {
    for (i, point) in points(&BENT, 12).into_iter().enumerate() {
        assert_eq!(curve_at(&BENT, i as f64 / 11.0).expect("accepted").position, point);
    }
}

#[test]
fn point_without_direction() {
    let one_place = [[1.0, 2.0, 3.0, 1.0]; 4];
    assert_eq!(curve_at(&one_place, 0.5), Ok(CurvePoint { position: [1.0, 2.0, 3.0], direction: [0.0; 3] }));
}

/// The direction at the start of a curve that goes there by (x, 0, 0) to its second control point.
fn first_direction(x: f64) -> [f64; 3] {
    curve_at(&[[0.0, 0.0, 0.0, 1.0], [x, 0.0, 0.0, 1.0], [x, 0.0, 0.0, 1.0], [x, 0.0, 0.0, 1.0]], 0.0).expect("accepted").direction
}

#[test]
fn direction_of_a_difference_too_short_or_too_long() {
    for (x, along) in [(1e-300, 0.0), (9e-31, 0.0), (1.1e-30, 1.0), (1e154, 1.0), (1.34e154, 1.0), (1.341e154, 0.0), (1e200, 0.0), (-1e200, -0.0), (-2.0, -1.0)] {
        assert_eq!(first_direction(x).map(f64::to_bits), [along, 0.0, 0.0].map(f64::to_bits), "{x}");
    }
    for x in [f64::INFINITY, f64::NEG_INFINITY, f64::NAN] {
        assert!(first_direction(x)[0].is_nan(), "{x}");
    }
    // finite control points: the division by a weight gives an infinite point
    let far = curve_at(&[[0.0, 0.0, 0.0, 1.0], [1e200, 1.0, 0.0, 1e-200], [0.0; 4], [0.0; 4]], 0.0).expect("accepted").direction;
    assert!(far[0].is_nan() && far[1] == 0.0 && far[2] == 0.0, "{far:?}");
}

#[test]
fn weight_zero_leaves_the_coordinates() {
    let weightless = BENT.map(|[x, y, z, _]| [x, y, z, 0.0]);
    assert_eq!(curve_at(&weightless, 0.0).expect("accepted").position, [1.0, 0.0, 0.0]);
}

#[test]
fn parameters_outside_are_refused() {
    for x in NO_PARAMETERS {
        assert_eq!(curve_at(&BENT, x), Err(Refused { number: 40, place: 0 }));
    }
    assert_eq!(curve_at(&BENT, -0.0), curve_at(&BENT, 0.0));
}

#[test]
fn lists_are_refused_in_order() {
    for count in [0, 1, 257, 1 << 16, (1 << 32) + 2, usize::MAX] {
        assert_eq!([0, 3, 771].map(|room| list_refused(count, room)), [41; 3]);
    }
    for count in [2, 100, 256] {
        assert_eq!([0, count, 3 * count - 1, 3 * count + 1, 3 * count + 3].map(|room| list_refused(count, room)), [42; 5]);
    }
}

#[test]
fn other_lengths_are_refused_first() {
    for numbers in [0, 15, 17, 20] {
        for x in NO_PARAMETERS.into_iter().chain([0.5]) {
            assert_eq!([5, 6, 7].map(|room| raw_point(numbers, x, room)[..2].to_vec()), [[2, 0]; 3]);
        }
        for (count, room) in [(4, 12), (1, 3), (257, 771), (4, 11)] {
            assert_eq!(raw_points(numbers, count, room)[..2], [2, 0]);
        }
    }
    for x in [0.5, f64::NAN] {
        assert_eq!([0, 5, 7].map(|room| raw_point(16, x, room)[..2].to_vec()), [[2, 0]; 3]);
    }
    assert_eq!((raw_point(16, 2.0, 6)[..2].to_vec(), raw_points(16, 257, 6)[..2].to_vec()), (vec![40, 0], vec![41, 0]));
    assert_eq!((raw_points(16, 4, 11)[..2].to_vec(), raw_points(16, 4, 12)[0], raw_point(16, 0.5, 6)[0]), (vec![42, 0], 0, 0));
}

#[test]
fn refusals_say_what_is_wrong() {
    let words = [40, 41, 42].map(|number| Refused { number, place: 0 }.meaning());
    assert!(words[0].starts_with("the parameter") && words[1].starts_with("the count of points") && words[2].starts_with("the list"));
}
