//! The calls on several threads at once, and the stack that they take.

use std::thread::{self, Builder};
use tangents_host::solid::{Rule, Solid};

const LETTER: &str = concat!(env!("CARGO_MANIFEST_DIR"), "/../examples/letter.stl");

/// The bits of the letter's tangents, with the creases of an angle: by `read_stl`, a crease listing and `create_tangents`.
fn tangents(file: &[u8], angle: usize) -> Vec<u64> {
    let solid = Solid::of_bytes(file).expect("accepted");
    let creases = solid.creases(angle as f64, Rule::Clean).expect("accepted");
    solid.tangents(&creases).expect("accepted").0.into_iter().map(f64::to_bits).collect()
}

#[test]
fn calls_at_once_give_what_they_give_alone() {
    let file = std::fs::read(LETTER).expect("the letter");
    let angles = [30, 50, 70, 100];
    let file = &file;
    let alone = angles.map(|angle| tangents(file, angle));
    thread::scope(|scope| {
        for (angle, alone) in angles.into_iter().zip(&alone).cycle().take(16) {
            scope.spawn(move || (0..50).for_each(|_| assert!(tangents(file, angle) == *alone)));
        }
    });
}

#[test]
fn reading_needs_less_than_a_megabyte_of_stack() {
    let file = std::fs::read(LETTER).expect("the letter");
    let reader = Builder::new().stack_size(1_000_000).spawn(move || Solid::of_bytes(&file).expect("accepted").mesh.counts.points);
    assert_eq!(reader.expect("a thread").join().expect("a mesh"), 24);
}
