//! Sets of vertices below 64 in a word.

pub fn bit(v: usize) -> u64 {
    1 << v
}

/// The mask changes nothing where there is a member; it spares the test that the index is below 64.
pub fn lowest(set: u64) -> usize {
    (set.trailing_zeros() & 63) as usize
}

pub fn size(set: u64) -> u32 {
    set.count_ones()
}

/// The vertices below n.
pub fn below(n: usize) -> u64 {
    if n == 64 {
        u64::MAX
    } else {
        bit(n) - 1
    }
}

/// The vertices above v.
pub fn above(v: usize) -> u64 {
    u64::MAX << v << 1
}

/// The members of a set by rising number.
pub struct Members(pub u64);

impl Iterator for Members {
    type Item = usize;

    fn next(&mut self) -> Option<usize> {
        if self.0 == 0 {
            return None;
        }
        let v = lowest(self.0);
        self.0 &= self.0 - 1;
        Some(v)
    }
}
