//! Sets of boxes.

/// The most boxes that a roster has.
pub const MOST: usize = 32;

/// A set of boxes: bit i stands for box i.
#[derive(Clone, Copy, Debug, Default, PartialEq, Eq)]
pub struct BoxSet(pub u32);

impl BoxSet {
    pub const NONE: BoxSet = BoxSet(0);

    /// The boxes below `boxes`, of which there are 1 to 32.
    pub fn below(boxes: usize) -> BoxSet {
        BoxSet(u32::MAX >> (MOST - boxes))
    }

    pub fn single(index: usize) -> BoxSet {
        BoxSet(1 << index)
    }

    pub fn size(self) -> usize {
        self.0.count_ones() as usize
    }

    pub fn is_empty(self) -> bool {
        self.0 == 0
    }

    pub fn has(self, index: usize) -> bool {
        index < MOST && self.0 >> index & 1 == 1
    }

    pub fn lowest(self) -> Option<usize> {
        (!self.is_empty()).then(|| self.0.trailing_zeros() as usize)
    }

    pub fn with(self, other: BoxSet) -> BoxSet {
        BoxSet(self.0 | other.0)
    }

    pub fn minus(self, other: BoxSet) -> BoxSet {
        BoxSet(self.0 & !other.0)
    }

    pub fn is_within(self, other: BoxSet) -> bool {
        self.minus(other).is_empty()
    }

    pub fn iter(self) -> Members {
        Members(self)
    }
}

impl IntoIterator for BoxSet {
    type Item = usize;
    type IntoIter = Members;

    fn into_iter(self) -> Members {
        self.iter()
    }
}

impl FromIterator<usize> for BoxSet {
    fn from_iter<I: IntoIterator<Item = usize>>(boxes: I) -> BoxSet {
        boxes.into_iter().fold(BoxSet::NONE, |set, index| set.with(BoxSet::single(index)))
    }
}

/// The boxes of a set, from the lowest on.
#[derive(Clone, Copy, Debug)]
pub struct Members(BoxSet);

impl Iterator for Members {
    type Item = usize;

    fn next(&mut self) -> Option<usize> {
        let lowest = self.0.lowest()?;
        self.0 = BoxSet(self.0.0 & (self.0.0 - 1));
        Some(lowest)
    }
}
