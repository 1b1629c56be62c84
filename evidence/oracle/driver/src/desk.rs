//! The Rust's space with what document 01 asks for beside it: 1, 2, 4 and 5 are tested here, 8 to 11 by the stand-ins, 7 by
//! the Rust itself; and a refused cut leaves nothing behind.

use approx_collections::WATCH;
use eyre::{Report, Result, bail, eyre};
use hypermath::prelude::*;
use hypershape::flat::*;
use std::panic::{AssertUnwindSafe, catch_unwind};
use std::sync::atomic::Ordering::Relaxed;

const T: f64 = approx_collections::T;

pub struct Divider {
    pub normal: Vec<f64>,
    pub distance: f64,
}

impl Divider {
    fn fits(&self) -> bool {
        let squares = self.normal.iter().fold(0.0, |sum, x| sum + x * x);
        self.normal.iter().all(|x| (-1.0..=1.0).contains(x))
            && (1.0 - T..=1.0 + T).contains(&squares)
            && (self.distance.is_infinite() || (-262144.0..=262144.0).contains(&self.distance))
    }
}

pub struct CutRecord {
    pub kept: u8,
    pub root: u16,
    pub divider: Divider,
}

pub struct Desk {
    pub dimensions: u8,
    pub space: Space,
    radius: f64,
    taken: Vec<CutRecord>,
    rules: bool,
}

impl Desk {
    pub fn new(dimensions: u8, radius: f64, rules: bool) -> Result<Desk> {
        if rules && !(1..=4).contains(&dimensions) {
            bail!("reply 1");
        }
        if rules && !(1.0..=65536.0).contains(&radius) {
            bail!("reply 2");
        }
        let space = guarded(|| Space::with_primordial_cube_radius(dimensions, radius))?;
        Ok(Desk { dimensions, space, radius, taken: vec![], rules })
    }

    pub fn counts(&self) -> String {
        self.space.probe_counts().map(|count| count.to_string()).join(" ")
    }

    pub fn cut(&mut self, record: CutRecord) -> Result<ElementCutOutput> {
        if self.rules && usize::from(record.root) >= self.space.probe_counts()[0] {
            bail!("reply 4");
        }
        if self.rules && !record.divider.fits() {
            bail!("reply 5");
        }
        let answer = cut(&mut self.space, &record);
        match answer {
            Ok(_) => self.taken.push(record),
            Err(_) => {
                eprintln!("left behind: {}", self.counts());
                self.restore()?;
            }
        }
        answer
    }

    /// The Rust leaves partial entries after an error, so the table is built again from the cuts that were taken.
    fn restore(&mut self) -> Result<()> {
        let watched = WATCH.swap(false, Relaxed);
        self.space = Space::with_primordial_cube_radius(self.dimensions, self.radius)?;
        for record in &self.taken {
            cut(&mut self.space, record)?;
        }
        WATCH.store(watched, Relaxed);
        Ok(())
    }
}

/// An error of the Rust's own in a cut is its test 7.
fn cut(space: &mut Space, record: &CutRecord) -> Result<ElementCutOutput> {
    let fate = |side: u8| if record.kept & side == 0 { PolytopeFate::Remove } else { PolytopeFate::Keep };
    let normal = record.divider.normal.iter().copied().collect();
    let params = CutParams {
        divider: Hyperplane::from_bits(normal, record.divider.distance),
        inside: fate(1),
        outside: fate(2),
        portal: false,
    };
    guarded(|| Cut::new(params).cut(space, ElementId(record.root.into())).map_err(|error| numbered(error, 7)))
}

/// A panic is an error too, without a number.
pub fn guarded<T>(call: impl FnOnce() -> Result<T>) -> Result<T> {
    catch_unwind(AssertUnwindSafe(call)).unwrap_or_else(|_| Err(eyre!("panic")))
}

/// The error with a refusal's number, unless it has one.
pub fn numbered(error: Report, number: u8) -> Report {
    if number_of(&error).is_some() { error } else { eyre!("reply {number}: {error}") }
}

fn number_of(error: &Report) -> Option<String> {
    let text = error.to_string();
    let number = text.strip_prefix("reply ")?;
    Some(number.split(':').next()?.into())
}

/// What is printed for an error.
pub fn refused(error: &Report, rules: bool) -> String {
    let number = number_of(error).filter(|_| rules);
    format!("refused {}", number.unwrap_or_else(|| "?".into()))
}
