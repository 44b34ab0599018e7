//! `robust` as the exact signs of Shewchuk's determinants, by whole numbers of 128 bits.
//!
//! Coordinates are whole numbers from -2^24 to 2^24. Differences then lie within 2^25 and the circle
//! determinant within 2^104. The third point of an orientation may be a centre that `try_get_hull_center`
//! has made, a whole number of 2^-25 up to half beyond that: in such parts differences lie within 2^51 and
//! the orientation within 2^103. The answers are -1.0, 0.0 or 1.0: spade asks for signs alone. With the
//! feature `filter`, for benchmarks, floats decide where they can.

#[cfg(feature = "filter")]
mod filter;

#[derive(Clone, Copy, Debug)]
pub struct Coord<T: Into<f64>> {
    pub x: T,
    pub y: T,
}

/// The greatest coordinate, as in 01: 16,777,216.
const RANGE: f64 = 16_777_216.0;

fn floats<T: Into<f64>>(point: Coord<T>) -> [f64; 2] {
    [point.x.into(), point.y.into()]
}

fn whole(value: f64) -> i128 {
    assert!(value.abs() <= RANGE && value == value.trunc(), "{value} is no whole number from -2^24 to 2^24");
    value as i128
}

fn whole_coord([x, y]: [f64; 2]) -> [i128; 2] {
    [whole(x), whole(y)]
}

/// The parts of 2^-25 in 1.
const PARTS: f64 = 33_554_432.0;

/// A centre's coordinate in parts. The product with a power of two is exact.
fn parts(value: f64) -> i128 {
    let scaled = value * PARTS;
    let holds = value.abs() <= RANGE + 0.5 && scaled == scaled.trunc();
    assert!(holds, "{value} is no whole number of 2^-25 within 2^24 and a half");
    scaled as i128
}

fn sign(determinant: i128) -> f64 {
    determinant.signum() as f64
}

/// Positive when `pc` lies left of the line from `pa` to `pb`.
pub fn orient2d<T: Into<f64>>(pa: Coord<T>, pb: Coord<T>, pc: Coord<T>) -> f64 {
    let [pa, pb, pc] = [pa, pb, pc].map(floats);
    #[cfg(feature = "filter")]
    if let Some(sure) = filter::orient2d([pa, pb, pc]) {
        return sure;
    }
    let [pa, pb] = [pa, pb].map(|p| whole_coord(p).map(|c| c * PARTS as i128));
    let pc = pc.map(parts);
    let [acx, acy] = [pa[0] - pc[0], pa[1] - pc[1]];
    let [bcx, bcy] = [pb[0] - pc[0], pb[1] - pc[1]];
    sign(acx * bcy - acy * bcx)
}

/// Positive when `pd` lies inside the circle through `pa`, `pb`, `pc`, these turning left.
pub fn incircle<T: Into<f64>>(pa: Coord<T>, pb: Coord<T>, pc: Coord<T>, pd: Coord<T>) -> f64 {
    let [pa, pb, pc, pd] = [pa, pb, pc, pd].map(floats);
    #[cfg(feature = "filter")]
    if let Some(sure) = filter::incircle([pa, pb, pc, pd]) {
        return sure;
    }
    let [pa, pb, pc, pd] = [pa, pb, pc, pd].map(whole_coord);
    let row = |p: [i128; 2]| {
        let [x, y] = [p[0] - pd[0], p[1] - pd[1]];
        [x, y, x * x + y * y]
    };
    let [a, b, c] = [row(pa), row(pb), row(pc)];
    sign(
        a[2] * (b[0] * c[1] - c[0] * b[1])
            + b[2] * (c[0] * a[1] - a[0] * c[1])
            + c[2] * (a[0] * b[1] - b[0] * a[1]),
    )
}
