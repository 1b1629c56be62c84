//! What the published `flat` needs of its crate. Beside the files here `build` puts the published ones.

pub const DEFAULT_PRIMORDIAL_CUBE_RADIUS: f64 = 65536.0;
pub const DEFAULT_UNFOLD_LIMIT: usize = 10_000;
pub mod flat;
