//! Stands for `math`: `mul_add` is a product and a sum, each rounded, as document 01 says; the rest is std's.

#[inline]
pub fn abs(x: f64) -> f64 {
    x.abs()
}
#[inline]
pub fn mul_add(a: f64, b: f64, c: f64) -> f64 {
    a * b + c
}
#[inline]
pub fn sqrt(x: f64) -> f64 {
    x.sqrt()
}
#[inline]
pub fn acos(x: f64) -> f64 {
    x.acos()
}
#[inline]
pub fn tan(x: f64) -> f64 {
    x.tan()
}
#[inline]
pub fn atan2(y: f64, x: f64) -> f64 {
    y.atan2(x)
}
#[inline]
pub fn sin_cos(x: f64) -> (f64, f64) {
    x.sin_cos()
}
