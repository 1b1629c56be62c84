//! dodecahedron FILE: carves a dodecahedron out of a cube by its twelve planes, and writes it to FILE as binary STL, for a printer.

use spoonvelvet::{ElementCutOutput, ElementId, Hyperplane, Refused, Table};
use std::{env, error::Error, fs};

fn main() -> Result<(), Box<dyn Error>> {
    let path = env::args().nth(1).ok_or("dodecahedron FILE: where is it to be written?")?;
    let mut table = Table::with_primordial_cube_radius(3, 2.0)?;
    let piece = dodecahedron(&mut table)?;
    let file = table.stl(piece)?;
    fs::write(&path, &file)?;
    println!("{} faces, {} triangles, {} bytes", table.boundary_of(piece)?.len(), (file.len() - 84) / 50, file.len());
    Ok(())
}

/// Its faces are 1 from the centre, and its corners less than 2: so nothing of the cube's own facets is left.
fn dodecahedron(table: &mut Table) -> Result<ElementId, Refused> {
    let golden = (1.0 + 5f64.sqrt()) / 2.0;
    let length = (1.0 + golden * golden).sqrt();
    let mut piece = table.last_element();
    for axis in 0..3 {
        for (short, long) in [(1.0, 1.0), (1.0, -1.0), (-1.0, 1.0), (-1.0, -1.0)] {
            let mut normal = [0.0; 3];
            normal[axis] = short / length;
            normal[(axis + 1) % 3] = long * golden / length;
            if let ElementCutOutput::NonFlush { inside: Some(inside), .. } = table.carve(Hyperplane::new(&normal, 1.0)?, piece)?.output {
                piece = inside;
            }
        }
    }
    Ok(piece)
}
