//! The weight of a path: seconds first, then the number of edges.

/// The derived order compares `time` before `count`, as 01 asks.
/// "None yet" is `Option::None` wherever it is needed, so it has no value here.
#[derive(Clone, Copy, Debug, PartialEq, Eq, PartialOrd, Ord)]
pub struct Weight {
    pub time: u64,
    pub count: u32,
}

impl Weight {
    pub const ZERO: Weight = Weight { time: 0, count: 0 };

    /// Sums stay far below the number types: at most 4,095 rows of at most
    /// 33,488,385 s and 511 edges are ever added. The release build keeps
    /// overflow checks, so a slip would be loud.
    pub fn plus(self, other: Weight) -> Weight {
        Weight { time: self.time + other.time, count: self.count + other.count }
    }
}
