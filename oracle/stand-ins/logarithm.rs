//! Document 01's logarithm L as a double, for the build of the Rust that is compared; written from the document alone.

pub fn logarithm(n: usize) -> f64 {
    assert!(n <= u32::MAX as usize, "outside document 01's limits");
    if n == 0 {
        return f64::NEG_INFINITY;
    }
    let e = 63 - (n as u64).leading_zeros();
    let mut m = (n as u64) << (31 - e);
    let mut bits = 0u64;
    for _ in 0..24 {
        let p = m * m;
        let bit = p >> 63;
        m = p >> (31 + bit);
        bits = 2 * bits + bit;
    }
    (((e as u64) << 24) + bits) as f64
}
