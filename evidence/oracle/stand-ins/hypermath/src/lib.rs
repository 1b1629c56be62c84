//! Stand-in: floats as document 01 has them. Beside it `build` puts the published `vector.rs`.

#[macro_use]
mod vector;

pub use prelude::*;
pub use smallvec;

pub type Float = f64;

/// The map and the tests that it is handed to take no notice of it.
pub const APPROX: Precision = Precision::new_simple(22);

pub trait Ndim {
    fn ndim(&self) -> u8;
}

pub mod util {
    use crate::*;
    pub fn try_div(a: Float, b: Float) -> Option<Float> {
        let q = a / b;
        q.is_finite().then_some(q)
    }
    pub fn normal_basis_from(vs: impl IntoIterator<Item = Vector>) -> Vec<Vector> {
        let mut out: Vec<Vector> = vec![];
        for mut v in vs {
            for b in &out {
                v -= b * v.dot(b);
            }
            if let Some(n) = v.normalize() {
                out.push(n);
            }
        }
        out
    }
}

pub mod point {
    use crate::*;
    #[derive(Debug, Default, Clone, PartialEq)]
    pub struct Point(pub Vector);
    impl Point {
        pub fn as_vector(&self) -> &Vector {
            &self.0
        }
        pub fn into_vector(self) -> Vector {
            self.0
        }
    }
    impl FromIterator<Float> for Point {
        fn from_iter<I: IntoIterator<Item = Float>>(i: I) -> Self {
            Point(i.into_iter().collect())
        }
    }
    impl From<&[Float]> for Point {
        fn from(v: &[Float]) -> Self {
            Point(Vector::from(v))
        }
    }
    impl std::ops::Index<u8> for Point {
        type Output = Float;
        fn index(&self, i: u8) -> &Float {
            &self.0[i]
        }
    }
    macro_rules! sub {
        ($($a:ty, $b:ty);*) => { $(impl std::ops::Sub<$b> for $a {
            type Output = Vector;
            fn sub(self, o: $b) -> Vector { (&self.0) - (&o.0) }
        })* };
    }
    sub!(Point, Point; Point, &Point; &Point, Point; &Point, &Point);
    impl approx_collections::ApproxInternable for Point {
        fn intern_floats<F: FnMut(&mut f64)>(&mut self, f: &mut F) {
            self.0.intern_floats(f)
        }
    }
}

pub mod hyperplane {
    use crate::*;
    use approx_collections::T;

    #[derive(Debug, Copy, Clone, PartialEq, Eq)]
    pub enum PointWhichSide {
        On,
        Inside,
        Outside,
    }

    #[derive(Debug, Clone, PartialEq)]
    pub struct Hyperplane {
        normal: Vector,
        distance: Float,
    }
    pub struct HyperplaneLineIntersection {
        pub a_loc: PointWhichSide,
        pub b_loc: PointWhichSide,
        pub intersection: Option<Point>,
    }
    fn side(s: Float) -> PointWhichSide {
        approx_collections::watch_distance(s);
        if -T <= s && s <= T {
            PointWhichSide::On
        } else if s < -T {
            PointWhichSide::Inside
        } else {
            PointWhichSide::Outside
        }
    }
    impl Hyperplane {
        /// Holds the bits that it is given.
        pub fn from_bits(normal: Vector, distance: Float) -> Self {
            Self { normal, distance }
        }
        pub fn new(normal: Vector, distance: Float) -> Option<Self> {
            let m = normal.mag();
            let n: Vector = normal.iter().map(|x| x / m).collect();
            n.iter().all(|x| x.is_finite()).then_some(Self { normal: n, distance })
        }
        /// On an axis the quotients are exactly 1 or -1, and 0.
        pub fn from_pole(pole: &Vector) -> Option<Self> {
            let distance = pole.mag();
            let normal: Vector = pole.iter().map(|x| x / distance).collect();
            normal.iter().all(|x| x.is_finite()).then_some(Self { normal, distance })
        }
        pub fn normal(&self) -> &Vector {
            &self.normal
        }
        pub fn distance(&self) -> Float {
            self.distance
        }
        pub fn pole(&self) -> Point {
            Point(&self.normal * self.distance)
        }
        pub fn flip(&self) -> Self {
            Self { normal: -&self.normal, distance: -self.distance }
        }
        pub fn signed_distance(&self, p: &Point) -> Float {
            self.normal.dot(p.as_vector()) - self.distance
        }
        pub fn location_of_point(&self, p: &Point) -> PointWhichSide {
            side(self.signed_distance(p))
        }
        pub fn intersection_with_line_segment(&self, [a, b]: [&Point; 2]) -> HyperplaneLineIntersection {
            let (sa, sb) = (self.signed_distance(a), self.signed_distance(b));
            let (a_loc, b_loc) = (side(sa), side(sb));
            use PointWhichSide::{Inside, Outside};
            let intersection = match (a_loc, b_loc) {
                (Inside, Outside) | (Outside, Inside) => {
                    let t = sa / (sa - sb);
                    Some(
                        std::iter::zip(a.as_vector().iter(), b.as_vector().iter())
                            .map(|(a, b)| {
                                let c = a + (b - a) * t;
                                let (lo, hi) = if a < b { (a, b) } else { (b, a) };
                                if c > a && c > b {
                                    hi
                                } else if (c < a && c < b) || c.is_nan() {
                                    lo
                                } else {
                                    c
                                }
                            })
                            .collect(),
                    )
                }
                _ => None,
            };
            HyperplaneLineIntersection { a_loc, b_loc, intersection }
        }
        pub fn reflect_point(&self, p: &Point) -> Point {
            let s = self.signed_distance(p);
            std::iter::zip(p.as_vector().iter(), self.normal.iter()).map(|(p, n)| p - 2.0 * s * n).collect()
        }
        pub fn reflect_hyperplane(&self, h: &Hyperplane) -> Hyperplane {
            let c = h.normal.dot(&self.normal);
            Hyperplane {
                normal: std::iter::zip(h.normal.iter(), self.normal.iter()).map(|(n, m)| n - 2.0 * c * m).collect(),
                distance: h.distance - 2.0 * c * self.distance,
            }
        }
    }
    impl hypuz_util::ti::PushCheck for Hyperplane {}
    impl approx_collections::ApproxInternable for Hyperplane {
        fn intern_floats<F: FnMut(&mut f64)>(&mut self, f: &mut F) {
            self.normal.0.intern_floats(f);
            f(&mut self.distance);
        }
    }
}

pub mod centroid {
    use crate::*;
    #[derive(Debug, Clone, PartialEq)]
    pub struct Centroid {
        weighted: Vector,
        weight: Float,
    }
    impl Centroid {
        pub const ZERO: Self = Centroid { weighted: Vector::EMPTY, weight: 0.0 };
        pub fn new(p: &Point, weight: Float) -> Self {
            Centroid { weighted: p.as_vector() * weight, weight }
        }
        pub fn is_zero(&self) -> bool {
            APPROX.eq_zero(self.weight)
        }
        pub fn center(&self) -> Point {
            Point(&self.weighted / self.weight)
        }
    }
    impl std::ops::AddAssign for Centroid {
        fn add_assign(&mut self, o: Self) {
            self.weighted += &o.weighted;
            self.weight += o.weight;
        }
    }
    impl std::iter::Sum for Centroid {
        fn sum<I: Iterator<Item = Self>>(i: I) -> Self {
            let mut r = Self::ZERO;
            for c in i {
                r += c;
            }
            r
        }
    }
}

pub mod pga {
    use crate::*;
    pub struct Motor(pub Hyperplane);
    impl Motor {
        pub fn plane_reflection(_ndim: u8, h: &Hyperplane) -> Option<Self> {
            Some(Motor(h.clone()))
        }
    }
}

pub mod prelude {
    pub use crate::{APPROX, Float, Ndim, centroid::Centroid, hyperplane::*, pga, point::Point, vector, vector::*};
    pub use approx_collections::{self, ApproxHashMap, Precision};
    pub use tinyset::Fits64;
}
