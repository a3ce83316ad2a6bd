//! The refusals of the unit's calls, and what each number means.

use std::fmt;

/// Why a call was refused: the number of the question in documents 01 and 02, and the lowest place that breaks it.
#[derive(Clone, Copy, Debug, PartialEq, Eq)]
pub struct Refused {
    pub number: usize,
    pub place: usize,
}

impl Refused {
    /// What is wrong at the place, in words.
    pub fn meaning(self) -> &'static str {
        match self.number {
            1 => "the count of halfedges is not a multiple of 3, or a count is over 65,535",
            2 => "a list has not the length, or the room, that the call needs",
            3 => "this halfedge starts or ends at no point",
            4 => "the pair of this halfedge is no halfedge",
            5 => "the pair of this halfedge does not name it back",
            6 => "this halfedge ends where it starts, or its pair does not run the other way",
            7 => "the next halfedge of the triangle does not start where this one ends",
            8 => "the mesh number of this triangle is below 1",
            9 => "this sharp entry names no halfedge",
            10 => "the smoothness of this sharp entry is not a number, or has a set sign bit",
            11 => "the flag of this halfedge is neither 0 nor 1",
            12 => "the row of this halfedge is not in the list",
            30 => "the file's length is not 84 bytes and 50 for each triangle it counts, or it has over 65,535 halfedges (21,845 triangles) or points",
            31 => "this triangle has a corner that is not finite, or two that are equal",
            32 => "the directed edge of this halfedge, 3 t + i for side i of triangle t, occurs twice or has no reverse: the surface is not closed",
            40 => "the parameter is not a number, below 0 or above 1",
            41 => "the count of points is below 2 or above 256",
            42 => "the list has not three numbers for each point",
            _ => "no question has this number",
        }
    }
}

impl fmt::Display for Refused {
    fn fmt(&self, f: &mut fmt::Formatter) -> fmt::Result {
        write!(f, "refused {} {}: {}", self.number, self.place, self.meaning())
    }
}

impl std::error::Error for Refused {}
