//! Floats as the exact numbers that they are.

/// A finite float: a whole number that is odd, or 0, and the power of 2 that it is times.
pub fn exact(x: f64) -> (i64, i32) {
    let field = (x.to_bits() >> 52 & 0x7ff) as i32;
    let fraction = (x.to_bits() & ((1 << 52) - 1)) as i64;
    let (size, exponent) = if field == 0 { (fraction, -1074) } else { (fraction | 1 << 52, field - 1075) };
    if size == 0 {
        return (0, 0);
    }
    let even = size.trailing_zeros() as i32;
    let whole = size >> even;
    (if x.is_sign_negative() { -whole } else { whole }, exponent + even)
}

/// The bits of the nearest float of 32 bits, and of two equally near of the even one. Sizes of such floats rise with their bits, each is
/// also a float of 64 bits, and so is the middle between two neighbours: so no step here rounds. For coordinates, which are far below
/// the greatest.
pub fn narrowed(x: f64) -> u32 {
    let size = |bits: u32| f64::from(f32::from_bits(bits));
    let (mut low, mut beyond) = (0, f32::INFINITY.to_bits());
    while beyond - low > 1 {
        let middle = low + (beyond - low) / 2;
        if size(middle) <= x.abs() {
            low = middle;
        } else {
            beyond = middle;
        }
    }
    let middle = size(low) + (size(beyond) - size(low)) / 2.0;
    let is_up = x.abs() > middle || x.abs() == middle && low % 2 == 1;
    let sign = if x.is_sign_negative() { 1 << 31 } else { 0 };
    sign | if is_up { beyond } else { low }
}
