//! The signs that floats are sure of, by Shewchuk's bounds of their error: as the crate `robust` begins. For benchmarks.

/// Half the distance from 1.0 to the next double.
const EPSILON: f64 = f64::EPSILON / 2.0;

/// The determinant, where its error is less than it; `factor` is 3 or 10, and the sum of its terms' sizes is `permanent`.
#[inline]
fn sure(determinant: f64, permanent: f64, factor: f64) -> Option<f64> {
    let bound = (factor + 10.0 * factor * EPSILON) * EPSILON * permanent;
    (determinant > bound || -determinant > bound).then_some(determinant)
}

#[inline]
pub fn orient2d([pa, pb, pc]: [[f64; 2]; 3]) -> Option<f64> {
    let left = (pa[0] - pc[0]) * (pb[1] - pc[1]);
    let right = (pa[1] - pc[1]) * (pb[0] - pc[0]);
    sure(left - right, left.abs() + right.abs(), 3.0)
}

#[inline]
pub fn incircle([pa, pb, pc, pd]: [[f64; 2]; 4]) -> Option<f64> {
    let row = |p: [f64; 2]| {
        let [x, y] = [p[0] - pd[0], p[1] - pd[1]];
        [x, y, x * x + y * y]
    };
    let [a, b, c] = [row(pa), row(pb), row(pc)];
    let products = |p: [f64; 3], q: [f64; 3]| [p[0] * q[1], q[0] * p[1]];
    let [bc, ca, ab] = [products(b, c), products(c, a), products(a, b)];
    let determinant = a[2] * (bc[0] - bc[1]) + b[2] * (ca[0] - ca[1]) + c[2] * (ab[0] - ab[1]);
    let size = |p: [f64; 2]| p[0].abs() + p[1].abs();
    sure(determinant, a[2] * size(bc) + b[2] * size(ca) + c[2] * size(ab), 10.0)
}
