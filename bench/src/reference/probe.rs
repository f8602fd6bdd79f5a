//! A probe reading turned to a rate.

use crate::Value;

const MOST_RATE: u64 = 10_000;

/// The hundredth of an inch per hour that is nearest to the reading's exact value, the lower one at an exact half.
///
/// A finite float is `mantissa * 2^exponent`. With an exponent of 0 or more it is at least 2^23, far over the largest
/// rate; with one of -64 or less it is far below half a hundredth. Between, the hundredths are a fraction: the mantissa
/// times 100, or times 500 over 127 for millimetres, over a power of two. The fraction is rounded in one step, since
/// shifting the power out first would lose the half.
pub fn rate(millimetres: bool, reading: f32) -> Value {
    if !reading.is_finite() || reading < 0.0 {
        return Value::refused(11);
    }
    let bits = reading.to_bits() & 0x7fff_ffff;
    let (field, fraction) = (bits >> 23, (bits & 0x7f_ffff) as u128);
    let (mantissa, exponent) = match field {
        0 => (fraction, -149),
        _ => (fraction | 1 << 23, field as i32 - 150),
    };
    if exponent >= 0 {
        return Value::refused(12);
    }
    let down = -exponent as u32;
    if down >= 64 {
        return Value::granted(0);
    }
    let (hundredths, units) = if millimetres { (500, 127) } else { (100, 1) };
    let rate = nearest(mantissa * hundredths, units << down);
    if rate > MOST_RATE {
        return Value::refused(12);
    }
    Value::granted(rate)
}

/// The largest whole number that is below the fraction `over / under` and a half.
fn nearest(over: u128, under: u128) -> u64 {
    ((2 * over + under - 1) / (2 * under)) as u64
}
