//! A cube and an octahedron with slivers, triangles whose corners lie on one line: by the ported rule their edges are creases, by the clean one they are not.

mod programs;

use programs::run;
use tangents_host::solid::{Rule, Solid};
use tangents_host::{valid_tangents, Listed};

type Point = [f32; 3];

const UP: Point = [0.0, 0.0, 1.0];

/// Corners of the top of the cube: its diagonal, and a further one beside each.
const A: Point = [0.0, 0.0, 1.0];
const B: Point = [1.0, 0.0, 1.0];
const C: Point = [1.0, 1.0, 1.0];

fn cube() -> Vec<[Point; 3]> {
    let [d, e, f, g, h] = [[0.0, 1.0, 1.0], [0.0, 0.0, 0.0], [1.0, 0.0, 0.0], [1.0, 1.0, 0.0], [0.0, 1.0, 0.0]];
    let faces = [[A, B, C, d], [e, h, g, f], [e, f, B, A], [f, g, C, B], [g, h, d, C], [h, e, A, d]];
    faces.iter().flat_map(|&[a, b, c, d]| [[a, b, c], [c, d, a]]).collect()
}

fn octahedron() -> Vec<[Point; 3]> {
    let ring = [[1.0, 0.0, 0.0], [0.0, 1.0, 0.0], [-1.0, 0.0, 0.0], [0.0, -1.0, 0.0]];
    (0..4).flat_map(|i| [[ring[i], ring[(i + 1) % 4], UP], [ring[(i + 1) % 4], ring[i], [0.0, 0.0, -1.0]]]).collect()
}

/// The shell with a sliver on the edge from a to b: the triangle there is cut in two at the middle.
fn with_sliver(mut shell: Vec<[Point; 3]>, a: Point, b: Point) -> Vec<[Point; 3]> {
    let at = |t: &[Point; 3]| (0..3).find(|&i| t[i] == a && t[(i + 1) % 3] == b);
    let (t, i) = shell.iter().enumerate().find_map(|(t, corners)| Some((t, at(corners)?))).expect("the edge");
    let (c, middle) = (shell[t][(i + 2) % 3], [0, 1, 2].map(|k| (a[k] + b[k]) / 2.0));
    shell[t] = [a, middle, c];
    shell.extend([[middle, b, c], [a, b, middle]]);
    shell
}

/// The file of a shell, each triangle with this normal.
fn file(shell: &[[Point; 3]], normal: Point) -> Vec<u8> {
    let mut bytes = vec![0; 80];
    bytes.extend((shell.len() as u32).to_le_bytes());
    for corners in shell {
        bytes.extend([normal, corners[0], corners[1], corners[2]].as_flattened().iter().flat_map(|x| x.to_le_bytes()));
        bytes.extend([0; 2]);
    }
    bytes
}

fn solid(shell: &[[Point; 3]]) -> Solid {
    Solid::of_bytes(&file(shell, [0.0; 3])).expect("accepted")
}

/// What both listings give: the ported one, and the clean one.
fn listed(solid: &Solid, angle: f64) -> [Listed; 2] {
    [Rule::Ported, Rule::Clean].map(|rule| solid.creases(angle, rule).expect("accepted").listed)
}

#[test]
fn slivers_are_creases_by_the_ported_rule() {
    let within = with_sliver(cube(), C, A);
    let along = with_sliver(cube(), A, B);
    let both = with_sliver(with_sliver(cube(), A, B), C, A);
    // the twelve edges of the cube, less the one that a sliver lies along; and three of each sliver
    for (shell, tally, slivers) in [(cube(), 12, 0), (within, 12, 3), (along, 11, 3), (both, 11, 6)] {
        let solid = solid(&shell);
        assert_eq!(solid.faces, 6);
        assert_eq!(listed(&solid, 30.0), [Listed { entries: 2 * (tally + slivers), tally }, Listed { entries: 2 * tally, tally }]);
        assert_eq!(solid.creases(30.0, Rule::Ported).expect("accepted").by_slivers(), slivers);
        assert_eq!(listed(&solid, 90.5), [Listed { entries: 0, tally: 0 }; 2]);
    }
}

#[test]
fn clean_listing_leaves_out_the_edges_at_slivers() {
    let solid = solid(&with_sliver(cube(), C, A));
    let [ported, clean] = [Rule::Ported, Rule::Clean].map(|rule| solid.creases(30.0, rule).expect("accepted").entries);
    let sliver = solid.mesh.triangles() - 1;
    let others = ported.chunks_exact(2).filter(|edge| edge.iter().all(|e| e / 3 != sliver)).flatten();
    assert!(clean.iter().eq(others));
}

#[test]
fn slivers_with_a_stored_normal_are_none() {
    // the top alone has to face up: the other normals are wrong, but of length 1
    let solid = Solid::of_bytes(&file(&with_sliver(cube(), C, A), UP)).expect("accepted");
    assert_eq!((solid.replaced, listed(&solid, 30.0)), (0, [Listed { entries: 0, tally: 0 }; 2]));
}

#[test]
fn both_listings_give_tangents() {
    let solid = solid(&with_sliver(cube(), C, A));
    let (n, p) = (solid.mesh.counts.halfedges, solid.mesh.counts.points);
    let [ported, clean] = [Rule::Ported, Rule::Clean].map(|rule| {
        let (tangents, _) = solid.tangents(&solid.creases(30.0, rule).expect("accepted")).expect("accepted");
        assert_eq!(valid_tangents(n, p, &solid.mesh.h, &solid.mesh.pos, &tangents), Ok(true));
        tangents
    });
    assert_ne!(ported, clean);
}

/// What a program prints of a shell, by either listing.
fn printed(program: &str, shell: &[[Point; 3]], words: &[&str]) -> [String; 2] {
    let name = program.rsplit('/').next().expect("a name");
    let path = std::env::temp_dir().join(format!("tangents-slivers-{name}-{}.stl", std::process::id()));
    std::fs::write(&path, file(shell, [0.0; 3])).expect("a temporary file");
    let printed = [&[][..], &["--clean"]].map(|rule| {
        let (out, errors, status) = run(program, &[&[path.to_str().expect("a name")][..], words, rule].concat());
        assert!(status == Some(0) && errors.is_empty(), "{errors}");
        out
    });
    std::fs::remove_file(&path).expect("a temporary file");
    printed
}

#[test]
fn program_takes_either_listing() {
    let shell = with_sliver(with_sliver(cube(), A, B), C, A);
    let program = env!("CARGO_BIN_EXE_stl");
    let [ported, clean] = printed(program, &shell, &[]);
    let counts = "triangles 16\npoints 10\nhalfedges 48\nnormals 0 stored, 16 from the corners\nfaces 6\n";
    assert_eq!(ported, format!("{counts}creases 11 edges, 34 entries\nedges listed only for a sliver 6\nedges without direction 0\n"));
    assert_eq!(clean, format!("{counts}creases 11 edges, 22 entries\nedges listed only for a sliver 0\nedges without direction 0\n"));
    assert!(printed(program, &shell, &["30", "--tangents"])[1].starts_with(&format!("{clean}tangents 48\n")));
}

#[test]
fn program_draws_by_either_listing() {
    // 70.5 degrees at each edge of an octahedron, and ninety at a sliver
    let [ported, clean] = printed(env!("CARGO_BIN_EXE_curves"), &with_sliver(octahedron(), [1.0, 0.0, 0.0], [0.0, 1.0, 0.0]), &["80"]);
    assert!(ported.contains("<desc>15 edges: 14 curves, 0 straight, 1 inside quads, 0 not finite</desc>"), "{ported}");
    assert!(clean.contains("<desc>15 edges: 13 curves, 0 straight, 2 inside quads, 0 not finite</desc>"), "{clean}");
}
