//! The sample letter, examples/letter.stl, and damaged copies of it, by the library and by the program `stl`.

mod programs;

use programs::run;
use tangents_host::solid::{Rule, Solid};
use tangents_host::{read_stl, valid_tangents, Listed, MeshCounts, Refused};

const PROGRAM: &str = env!("CARGO_BIN_EXE_stl");
const LETTER: &str = concat!(env!("CARGO_MANIFEST_DIR"), "/../examples/letter.stl");

fn letter() -> Vec<u8> {
    std::fs::read(LETTER).expect("the letter")
}

/// Why a copy of the letter is refused, after the change.
fn refused(change: impl FnOnce(&mut Vec<u8>)) -> Refused {
    let mut bytes = letter();
    change(&mut bytes);
    Solid::of_bytes(&bytes).err().expect("a refusal")
}

#[test]
fn letter_is_accepted() {
    let solid = Solid::read(LETTER).expect("accepted");
    assert_eq!(solid.mesh.counts, MeshCounts { halfedges: 132, points: 24 });
    assert_eq!((solid.faces, solid.replaced), (18, 0));
}

#[test]
fn letter_has_its_creases() {
    let solid = Solid::read(LETTER).expect("accepted");
    // every edge between two faces; those of 60 and 90 degrees; none
    for (angle, tally) in [(30.0, 40), (50.0, 24), (90.5, 0)] {
        assert_eq!(solid.creases(angle, Rule::Ported).expect("accepted").listed, Listed { entries: 2 * tally, tally });
    }
}

#[test]
fn letter_has_tangents() {
    let solid = Solid::read(LETTER).expect("accepted");
    let (tangents, made) = solid.tangents(&solid.creases(30.0, Rule::Ported).expect("accepted")).expect("accepted");
    assert_eq!(made.directionless, 0);
    assert_eq!(valid_tangents(132, 24, &solid.mesh.h, &solid.mesh.pos, &tangents), Ok(true));
}

#[test]
fn normals_are_replaced() {
    let mut bytes = letter();
    bytes[84..].chunks_exact_mut(50).for_each(|triangle| triangle[..12].fill(0));
    let (solid, stored) = (Solid::of_bytes(&bytes).expect("accepted"), Solid::read(LETTER).expect("accepted"));
    assert_eq!(solid.replaced, 44);
    assert!(solid.face_normals.iter().zip(&stored.face_normals).all(|(x, y)| (x - y).abs() < 1e-7));
}

#[test]
fn damaged_letters_are_refused() {
    assert_eq!(refused(|bytes| bytes.truncate(2283)), Refused { number: 30, place: 0 });
    assert_eq!(refused(|bytes| bytes[84 + 50 * 5 + 12..][..4].copy_from_slice(&f32::NAN.to_le_bytes())), Refused { number: 31, place: 5 });
    // triangle 7 the other way about: the edge that it shares with triangle 6 then occurs twice
    assert_eq!(refused(|bytes| bytes[84 + 50 * 7 + 12..][..24].rotate_left(12)), Refused { number: 32, place: 20 });
    let short = read_stl(&letter(), &mut vec![0.0; 9 * 44], &mut vec![0; 12 * 44 - 1], &mut vec![0.0; 3 * 44]);
    assert_eq!(short, Err(Refused { number: 2, place: 0 }));
}

#[test]
fn program_prints() {
    let counts = "triangles 44\npoints 24\nhalfedges 132\nnormals 44 stored, 0 from the corners\nfaces 18\n\
                  creases 24 edges, 48 entries\nedges listed only for a sliver 0\nedges without direction 0\n";
    let (short, long) = (run(PROGRAM, &[LETTER, "50"]), run(PROGRAM, &["--tangents", LETTER, "50"]));
    assert_eq!(short, (counts.into(), String::new(), Some(0)));
    let lines: Vec<&str> = long.0.strip_prefix(counts).expect("the counts").lines().collect();
    assert_eq!((lines.len(), lines[0], lines[132].len()), (133, "tangents 132", "131".len() + 4 * 17));
}

#[test]
fn program_says_what_is_wrong() {
    let file = std::env::temp_dir().join(format!("tangents-stl-{}.stl", std::process::id()));
    let name = file.to_str().expect("a name");
    let after = |bytes: &[u8]| {
        std::fs::write(&file, bytes).expect("a temporary file");
        run(PROGRAM, &[name])
    };
    let (cut, ascii) = (after(&letter()[..2000]), after(b"solid letter\nendsolid letter\n"));
    std::fs::remove_file(&file).expect("a temporary file");
    for (what, begin) in [(cut, "refused 30 0: "), (ascii, "the file looks like ASCII STL"), (run(PROGRAM, &[name]), "the file cannot be read")] {
        assert!(what.0.is_empty() && what.1.starts_with(begin) && what.2 == Some(1), "{what:?}");
    }
    for words in [&[][..], &[name, "a"], &[name, "1", "2"], &[name, "--tangent"]] {
        assert_eq!(run(PROGRAM, words).2, Some(2));
    }
}
