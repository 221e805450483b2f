//! A store's limits.

/// The maximum number of passes in a store, not counting the store's own.
pub const MOST_PASSES: u64 = 63;

/// A store's limits.
///
/// ```
/// use bestore_types::Limits;
/// let small = Limits { pages: 64, ..Limits::default() };
/// # assert_eq!(small.passes, 63);
/// ```
#[derive(Clone, Copy, Debug, PartialEq, Eq)]
pub struct Limits {
    /// The number of 4 KiB pages, 8 to 16,777,216. Opening a store takes time for each page, and memory for all of them. Afterwards, only
    /// pages that have been used take memory.
    pub pages: u64,
    /// The number of passes that can be open at the same time: 1 to 63. The store itself has one more. Each takes 89 bytes, and adds 13
    /// instructions to the roughly 12,000 of a write; a pin and a query cost the same with 8 passes as with 63 (28 November 2026).
    pub passes: u64,
    /// The maximum number of entries in the journal: 1 to 4,294,967,295.
    pub commits: u64,
}

impl Default for Limits {
    /// Returns limits of 16,384 pages, and the maximum numbers of passes and entries.
    fn default() -> Self {
        Self {
            pages: 16_384,
            passes: MOST_PASSES,
            commits: u32::MAX.into(),
        }
    }
}
