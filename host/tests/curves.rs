//! The picture of the sample letter, examples/letter.svg, by the library and by the program `curves`.

mod programs;

use programs::run;
use tangents_host::drawing::{controls, Drawing};
use tangents_host::solid::{Rule, Solid};

const PROGRAM: &str = env!("CARGO_BIN_EXE_curves");
const LETTER: &str = concat!(env!("CARGO_MANIFEST_DIR"), "/../examples/letter.stl");
const PICTURE: &str = include_str!("../../examples/letter.svg");

fn letter() -> Solid {
    Solid::read(LETTER).expect("the letter")
}

fn tangents(solid: &Solid, angle: f64) -> Vec<f64> {
    solid.tangents(&solid.creases(angle, Rule::Ported).expect("accepted")).expect("accepted").0
}

fn drawn(angle: f64) -> Drawing {
    let solid = letter();
    Drawing::of(&solid.mesh, &tangents(&solid, angle)).expect("drawn")
}

/// Where a point of the letter is seen.
fn seen([x, y, z]: [f64; 3]) -> [f64; 2] {
    [0.96 * x + 0.28 * y, -0.224 * x + 0.768 * y + 0.6 * z]
}

fn is_near([right, up]: [f64; 2], [other_right, other_up]: [f64; 2]) -> bool {
    (right - other_right).abs() < 1e-12 && (up - other_up).abs() < 1e-12
}

/// The curve of the edge between two points, from the first one on.
fn curve(drawing: &Drawing, from: [f64; 3], to: [f64; 3]) -> Vec<[f64; 2]> {
    let ends = [seen(from), seen(to)];
    let has = |curve: &&[[f64; 2]; 33], first: usize| is_near(curve[0], ends[first]) && is_near(curve[32], ends[1 - first]);
    let forward = drawing.curves.iter().find(|curve| has(curve, 0));
    let back = drawing.curves.iter().find(|curve| has(curve, 1));
    assert!(forward.is_none() || back.is_none(), "the edge is drawn twice");
    forward.map(|curve| curve.to_vec()).or(back.map(|curve| curve.iter().rev().copied().collect())).expect("the curve")
}

/// The numbers of a path of the picture, a list for each line.
fn lines(picture: &str, path: usize) -> Vec<Vec<f64>> {
    let path = picture.split(" d=\"\n").nth(path + 1).expect("the path").split('"').next().expect("its lines");
    path.lines().map(|line| line.strip_prefix("M ").expect("a line").split(' ').map(|x| x.parse().expect("a number")).collect()).collect()
}

#[test]
fn control_points_are_the_rusts() {
    let tangents = [[1.0, 0.5, -2.0, 0.75], [-1.0, 2.0, 0.5, 0.5]];
    let expected = [[1.0, 2.0, 3.0, 1.0], [1.5, 1.875, 0.75, 0.75], [2.0, 2.0, -0.25, 0.5], [5.0, 2.0, -1.0, 1.0]];
    assert_eq!(controls([[1.0, 2.0, 3.0], [5.0, 2.0, -1.0]], tangents), expected);
}

#[test]
fn edges_between_creases_are_straight() {
    // three creases meet at each corner of the letter: every curve runs along its chord
    let drawing = drawn(30.0);
    assert_eq!((drawing.curves.len(), drawing.straight), (0, 50));
}

#[test]
fn outline_is_round_without_creases() {
    // Two edges of the outline meet at each corner of the bottom, at a right angle. At the lower end of the stem they are 4 and 9 long: the
    // tangents there lie along (4, -9) and (-4, -9), are of length 2, half of the edge's, and of weight 2/3. The middle of the curve is
    // ((4, 0) + 2 (4 + 8 k, -18 k) + 2 (8 - 8 k, -18 k) + (8, 0)) / 6, where k is 1 over the root of 97.
    let drawing = drawn(100.0);
    let curve = curve(&drawing, [4.0, 0.0, 0.0], [8.0, 0.0, 0.0]);
    assert!(is_near(curve[16], seen([6.0, -12.0 / 97f64.sqrt(), 0.0])));
}

#[test]
fn edges_inside_quads_have_no_curve() {
    // the eight faces of the side and the eight of the cut, of two triangles each
    for (angle, curves, straight) in [(30.0, 0, 50), (50.0, 24, 26), (100.0, 50, 0)] {
        let drawing = drawn(angle);
        assert_eq!((drawing.chords.len(), drawing.inside_quads, drawing.not_finite), (66, 16, 0));
        assert_eq!((drawing.curves.len(), drawing.straight), (curves, straight));
    }
}

#[test]
fn curves_that_are_not_finite_are_left_out() {
    let solid = letter();
    let mut tangents = tangents(&solid, 100.0);
    let edges: Vec<usize> = (0..132).filter(|&e| solid.mesh.is_forward(e) && tangents[4 * e + 3] != -1.0).take(3).collect();
    tangents[4 * edges[0]] = f64::NAN;
    tangents[4 * solid.mesh.pair(edges[1]) + 2] = f64::INFINITY;
    // weights just above -1/3: the weight of the middle point is nearly zero, and that point alone is infinite
    for e in [edges[2], solid.mesh.pair(edges[2])] {
        tangents[4 * e..][..4].copy_from_slice(&[1e300, 0.0, 0.0, -0.33333333333333326]);
    }
    let drawing = Drawing::of(&solid.mesh, &tangents).expect("drawn");
    assert_eq!((drawing.chords.len(), drawing.curves.len(), drawing.straight, drawing.inside_quads, drawing.not_finite), (66, 47, 0, 16, 3));
    let svg = drawing.svg();
    assert!(svg.contains("<desc>66 edges: 47 curves, 0 straight, 16 inside quads, 3 not finite</desc>"));
    assert_eq!((lines(&svg, 0).len(), lines(&svg, 1).len()), (66, 47));
}

#[test]
fn picture_holds_all_that_is_drawn() {
    for angle in [30.0, 50.0, 100.0] {
        let svg = drawn(angle).svg();
        let size = svg.split("viewBox=\"0 0 ").nth(1).expect("a size").split(['"', ' ']).take(2);
        let size: Vec<f64> = size.map(|x| x.parse().expect("a number")).collect();
        let numbers: Vec<f64> = [lines(&svg, 0), lines(&svg, 1)].concat().concat();
        for i in 0..2 {
            let along = numbers.iter().skip(i).step_by(2);
            let (least, greatest) = along.fold((f64::MAX, f64::MIN), |(least, greatest), &x| (x.min(least), x.max(greatest)));
            // the margin on either side, to two decimals
            assert!((least - 16.0).abs() < 0.006 && (size[i] - greatest - 16.0).abs() < 0.011, "{least} {greatest} {size:?}");
        }
        assert_eq!(size.iter().fold(0.0, |longer: f64, &x| x.max(longer)), 640.0);
    }
}

#[test]
fn mesh_without_edges_gives_a_picture() {
    let empty = Solid::of_bytes(&[0; 84]).expect("accepted");
    let svg = Drawing::of(&empty.mesh, &[]).expect("drawn").svg();
    assert!(svg.contains("viewBox=\"0 0 32.00 32.00\"") && lines(&svg, 1).is_empty(), "{svg}");
}

#[test]
fn program_draws_the_committed_picture() {
    assert_eq!(drawn(50.0).svg(), PICTURE);
    for words in [&[LETTER, "50"][..], &["--clean", LETTER, "50"]] {
        assert_eq!(run(PROGRAM, words), (PICTURE.into(), String::new(), Some(0)));
    }
    let straight = run(PROGRAM, &[LETTER]);
    assert_eq!(straight, run(PROGRAM, &[LETTER, "30"]));
    assert_ne!(straight.0, PICTURE);
}

#[test]
fn program_says_what_is_wrong() {
    let (out, errors, status) = run(PROGRAM, &[&format!("{LETTER}.none")]);
    assert!(out.is_empty() && errors.starts_with("the file cannot be read") && status == Some(1), "{errors}");
    for words in [&[][..], &[LETTER, "a"], &[LETTER, "inf"], &[LETTER, "1", "2"], &[LETTER, "--tangents"]] {
        let (out, errors, status) = run(PROGRAM, words);
        assert!(out.is_empty() && errors.contains("curves --help") && status == Some(2), "{words:?} {errors}");
    }
}
