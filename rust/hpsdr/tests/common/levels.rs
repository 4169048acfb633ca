//! A record whose levels no frame has.

use hpsdr::Status;

/// Every level is above 4,095, and no two are alike.
pub fn high_levels() -> Status {
    Status {
        ain5: 4096,
        ain1: 40_000,
        ain2: 8191,
        ain3: 65_535,
        ain4: 4097,
        ain6: 32_768,
        ..Status::fresh()
    }
}
