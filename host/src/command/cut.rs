//! How a part is cut into slabs, and the limits of that.

pub const MOST_BOUND: u32 = 15;
pub const MOST_EXPONENT: u32 = 15;
pub const USUAL_BOUND: u32 = 4;
pub const USUAL_EXPONENT: u32 = 4;

/// How a part is cut.
pub struct Cut {
    pub bound: u32,
    /// There are two to the power of this many slabs.
    pub exponent: u32,
    pub nodes: u32,
}

impl Cut {
    pub fn slabs(&self) -> u32 {
        1 << self.exponent
    }

    /// The height of a slab's low side; with a half, of its middle.
    pub fn height(&self, slabs: f64) -> f64 {
        slabs / f64::from(self.slabs())
    }
}
