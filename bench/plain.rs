//! The same rules in plain Rust.

/// The largest sum of weights, and the largest total times it.
pub const LIMIT: u64 = i64::MAX as u64;

#[derive(Clone, Copy)]
pub enum Refusal {
    SheetLength = 40,
    NoWeight = 41,
    TooLarge = 42,
}

/// The sum of the weights, or the first question that fails.
fn weigh(total: u64, weights: &[u64], places: usize) -> Result<u64, Refusal> {
    if places != weights.len() {
        return Err(Refusal::SheetLength);
    }
    let sum: u128 = weights.iter().copied().map(u128::from).sum();
    if sum == 0 {
        return Err(Refusal::NoWeight);
    }
    match u64::try_from(sum) {
        Ok(sum) if sum <= LIMIT && u128::from(total) * u128::from(sum) <= u128::from(LIMIT) => {
            Ok(sum)
        }
        _ => Err(Refusal::TooLarge),
    }
}

/// Largest remainder, by sorting. It keeps its list of remainders between calls, which is faster
/// than a new list for each.
#[derive(Default)]
pub struct Largest {
    rests: Vec<(u64, usize)>,
}

impl Largest {
    #[inline(never)]
    pub fn divide(
        &mut self,
        total: u64,
        weights: &[u64],
        sheet: &mut [u64],
    ) -> Result<(), Refusal> {
        let sum = weigh(total, weights, sheet.len())?;
        let mut left = total;
        self.rests.clear();
        self.rests
            .extend(weights.iter().zip(sheet.iter_mut()).enumerate().map(
                |(place, (weight, share))| {
                    let product = total * weight;
                    *share = product / sum;
                    left -= *share;
                    (product % sum, place)
                },
            ));
        if left > 0 {
            // The largest remainder first, and of equals the earlier place.
            self.rests
                .sort_unstable_by(|a, b| b.0.cmp(&a.0).then(a.1.cmp(&b.1)));
            for &(_, place) in &self.rests[..left as usize] {
                sheet[place] += 1;
            }
        }
        Ok(())
    }
}

/// Running sums.
#[inline(never)]
pub fn running(total: u64, weights: &[u64], sheet: &mut [u64]) -> Result<(), Refusal> {
    let sum = weigh(total, weights, sheet.len())?;
    let mut through = 0;
    let mut given = 0;
    for (weight, share) in weights.iter().zip(sheet) {
        through += weight;
        let quotient = total * through / sum;
        *share = quotient - given;
        given = quotient;
    }
    Ok(())
}
