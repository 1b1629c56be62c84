//! The example session of document 01: a square of radius 1, cut twice at x = 0 with both sides kept.

use spoonvelvet::{Hyperplane, Refused, Table};

fn main() -> Result<(), Refused> {
    let mut table = Table::with_primordial_cube_radius(2, 1.0)?;
    let (square, divider) = (table.last_element(), Hyperplane::new(&[1.0, 0.0], 0.0)?);
    for _ in 0..2 {
        println!("{:?} {:?}", table.slice(divider, square)?, table.counts());
    }
    Ok(())
}
