//! The proved dividers, from libdividers_c.a.

/// Declares each divider of the library, and a safe call of it, which answers
/// 0 or the number of the refusal.
macro_rules! dividers {
    ($($(#[$doc:meta])* $call:ident calls $symbol:ident;)*) => {
        unsafe extern "C" {
            $(fn $symbol(
                total: u64,
                weights: *const u64,
                weights_len: usize,
                sheet: *mut u64,
                sheet_len: usize,
            ) -> u8;)*
        }
        $(
            $(#[$doc])*
            pub fn $call(total: u64, weights: &[u64], sheet: &mut [u64]) -> u8 {
                // SAFETY: both pointers and lengths are those of a slice, and the sheet is
                // borrowed alone.
                unsafe {
                    $symbol(
                        total,
                        weights.as_ptr(),
                        weights.len(),
                        sheet.as_mut_ptr(),
                        sheet.len(),
                    )
                }
            }
        )*
    };
}

dividers! {
    /// Divides by largest remainder.
    largest calls divide_largest;
    /// Divides by running sums.
    running calls divide_running;
}
