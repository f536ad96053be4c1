//! LEMON's `NetworkSimplex` as a second oracle for costs. Without LEMON's headers there is nothing here.

#![cfg(lemon)]

extern "C" {
    fn lemon_solve(image: *const u8) -> i64;
}

/// The least cost of the problem in an image that the library accepts.
pub fn least_cost(image: &[u8]) -> u64 {
    // SAFETY: all that is read of an accepted image is there.
    let cost = unsafe { lemon_solve(image.as_ptr()) };
    u64::try_from(cost).expect("LEMON finds an optimum")
}
