//! Stand-in for `hypot` of two grid differences (document 01, "Calls into other crates"): the f64
//! nearest to the exact root. The C library's own hypot is not the nearest on some differences.

pub trait NearestHypot {
    fn nearest_hypot(self, other: f64) -> f64;
}

impl NearestHypot for f64 {
    #[cfg(not(fast_root))]
    fn nearest_hypot(self, other: f64) -> f64 {
        let (a, b) = (grid_steps(self), grid_steps(other));
        // The root in grid steps, in pixels.
        nearest_root((a * a + b * b) as u64) / 1024.0
    }

    #[cfg(fast_root)]
    fn nearest_hypot(self, other: f64) -> f64 {
        MachineRoot::nearest_hypot(self, other)
    }
}

/// On the grid the squares and their sum are exact, and IEEE 754 asks of the machine's root that it is the nearest.
/// The other way checks that each time.
pub trait MachineRoot {
    fn nearest_hypot(self, other: f64) -> f64;
}

impl MachineRoot for f64 {
    fn nearest_hypot(self, other: f64) -> f64 {
        (self * self + other * other).sqrt()
    }
}

/// The C library's, for timing alone.
pub trait LibraryHypot {
    fn nearest_hypot(self, other: f64) -> f64;
}

impl LibraryHypot for f64 {
    fn nearest_hypot(self, other: f64) -> f64 {
        self.hypot(other)
    }
}

/// A difference of two coordinates in steps of 1/1024; anything off the grid is a fault of ours.
fn grid_steps(x: f64) -> i64 {
    let steps = x * 1024.0;
    let whole = steps as i64;
    assert!(whole as f64 == steps && whole.abs() <= 8192 * 1024, "off the grid: {x}");
    whole
}

/// The f64 nearest to the root of `n`, for `n` at most 2^47. The machine proposes it, whole numbers
/// decide: each one handed out is shown to be the nearest.
pub fn nearest_root(n: u64) -> f64 {
    let root = (n as f64).sqrt();
    assert!(is_nearest(n, root), "not the nearest root of {n}");
    root
}

/// Whether `root` is the f64 nearest to the root of `n`.
///
/// `n` is shifted left by an even number of bits until its root lies from 2^52 up to 2^53, where the
/// f64s are the whole numbers. There q is the nearest to the root of m when (q - 1/2)^2 < m < (q + 1/2)^2,
/// in whole numbers q^2 - q < m <= q^2 + q. A tie would need a root that ends in a half; its square ends
/// in a quarter, so there is none.
fn is_nearest(n: u64, root: f64) -> bool {
    if n == 0 {
        return root == 0.0;
    }
    let half_shift = (n.leading_zeros() + 42) / 2;
    let m = u128::from(n) << (2 * half_shift);
    let scaled = root * f64::from_bits(u64::from(1023 + half_shift) << 52);
    let q = scaled as u64;
    let (square, q_wide) = (u128::from(q) * u128::from(q), u128::from(q));
    q as f64 == scaled && square - q_wide < m && m <= square + q_wide
}
