//! Reads a binary STL file, lists its creases and makes its tangents, each by the unit. `stl --help` says more.

use std::error::Error;
use std::io::{self, BufWriter, Write};
use std::process::ExitCode;
use tangents_host::output::Unwritten;
use tangents_host::solid::arguments::{start, Arguments};
use tangents_host::solid::{Creases, Solid};
use tangents_host::Made;

const USAGE: &str = "stl FILE [ANGLE] [--clean] [--tangents]";

const HELP: &str = "
Reads a binary STL file, takes it as a mesh, lists its creases and makes its tangents from these as sharp
edges, all by the unit. ANGLE, in degrees, is how far the normals of two triangles must differ for their
edge to be a crease: 30 if it is left out. Each crease is sharp altogether (smoothness 0).

It prints the counts of triangles, points and halfedges; how many normals are the stored ones, and how
many are worked out from the corners, as the stored ones are zero, not finite or not of length 1; how many
faces there are, a face being triangles that share edges and lie in one plane; how many edges are creases
that no sliver touches, and the entries of the listing, two for each edge that is listed; how many edges
are listed only for a sliver; and how many tangents were computed on an edge without direction.

A sliver is a triangle whose normal is zero: its corners lie on one line, and no normal of length 1 is
stored for it. With an ANGLE below 90 its edges are listed as creases, also within a flat face.

--clean lists no edge that touches a sliver, and makes the tangents from the others. Where a sliver lies
along a true crease, that edge is left out too.

--tangents prints the tangents below: the line `tangents` with the count of halfedges, and for each
halfedge its number and the bits of x, y, z and the weight in 16 hex digits.

Status 0 says that all is printed. A file that is refused gives the line `refused NUMBER PLACE: ` and its
meaning on standard error, and status 1. Status 1 with another line says that the file cannot be read,
that it looks like ASCII STL, or that the output cannot be written. Status 2 says that the arguments are
wrong.
";

fn write_counts(out: &mut impl Write, solid: &Solid, creases: &Creases, made: Made) -> io::Result<()> {
    let triangles = solid.mesh.triangles();
    writeln!(out, "triangles {triangles}")?;
    writeln!(out, "points {}", solid.mesh.counts.points)?;
    writeln!(out, "halfedges {}", solid.mesh.counts.halfedges)?;
    writeln!(out, "normals {} stored, {} from the corners", triangles - solid.replaced, solid.replaced)?;
    writeln!(out, "faces {}", solid.faces)?;
    writeln!(out, "creases {} edges, {} entries", creases.listed.tally, creases.listed.entries)?;
    writeln!(out, "edges listed only for a sliver {}", creases.by_slivers())?;
    writeln!(out, "edges without direction {}", made.directionless)
}

fn write_tangents(out: &mut impl Write, tangents: &[f64]) -> io::Result<()> {
    writeln!(out, "tangents {}", tangents.len() / 4)?;
    for (e, tangent) in tangents.chunks_exact(4).enumerate() {
        write!(out, "{e}")?;
        for x in tangent {
            let bits = if x.is_nan() { 0x7ff8_0000_0000_0000 } else { x.to_bits() };
            write!(out, " {bits:016x}")?;
        }
        writeln!(out)?;
    }
    Ok(())
}

fn print(solid: &Solid, creases: &Creases, made: Made, tangents: Option<&[f64]>) -> io::Result<()> {
    let mut out = BufWriter::new(io::stdout().lock());
    write_counts(&mut out, solid, creases, made)?;
    if let Some(tangents) = tangents {
        write_tangents(&mut out, tangents)?;
    }
    out.flush()
}

fn run(arguments: &Arguments) -> Result<(), Box<dyn Error>> {
    let solid = Solid::read(&arguments.file)?;
    let creases = solid.creases(arguments.angle, arguments.rule)?;
    let (tangents, made) = solid.tangents(&creases)?;
    let listed = arguments.has("--tangents").then_some(&tangents[..]);
    Ok(print(&solid, &creases, made, listed).map_err(Unwritten)?)
}

fn main() -> ExitCode {
    start(USAGE, HELP, &["--tangents"], run)
}
