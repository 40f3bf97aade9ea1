//! Lent buffers. Each is filled with a pattern of its own and compared whole after the call, with the cells on both sides of it.

/// Cells kept on each side of a buffer with an odd seed. One with an even seed stands alone, so that a memory checker sees every
/// access beyond it.
const SIDE: usize = 32;

/// What a buffer is made of.
pub trait Cell: Copy + PartialEq + std::fmt::Debug {
    /// A value that no call writes, made of some random bits.
    fn pattern(bits: u32) -> Self;
}

impl Cell for i32 {
    /// 2^30 or more; literals are below 2^15.
    fn pattern(bits: u32) -> i32 {
        (bits & 0x3fff_ffff | 0x4000_0000) as i32
    }
}

impl Cell for u8 {
    /// 128 or more; run bytes, truth values and the bytes of a file are below.
    fn pattern(bits: u32) -> u8 {
        128 + (bits % 128) as u8
    }
}

pub struct Lent<T> {
    cells: Vec<T>,
    side: usize,
    seed: u64,
}

impl<T: Cell> Lent<T> {
    /// A buffer of some length, with the pattern of a seed.
    pub fn new(seed: u64, length: usize) -> Lent<T> {
        let side = if seed % 2 == 1 { SIDE } else { 0 };
        let cells = (0..side + length + side).map(|place| held::<T>(seed, place)).collect();
        Lent { cells, side, seed }
    }

    /// The part that is lent.
    pub fn slice(&mut self) -> &mut [T] {
        let end = self.cells.len() - self.side;
        &mut self.cells[self.side..end]
    }

    /// Tells where the buffer differs from what it held, with `written` from its start.
    pub fn difference(&self, written: &[T]) -> Option<String> {
        let expected = |place: usize| match place.checked_sub(self.side) {
            Some(index) if index < written.len() => written[index],
            _ => held(self.seed, place),
        };
        let place = (0..self.cells.len()).find(|place| self.cells[*place] != expected(*place))?;
        Some(format!(
            "lent buffer of {}, place {}: expected {:?}, got {:?}",
            self.cells.len() - 2 * self.side,
            place as i64 - self.side as i64,
            expected(place),
            self.cells[place]
        ))
    }
}

/// What a cell holds before the call.
fn held<T: Cell>(seed: u64, place: usize) -> T {
    let steps = seed.wrapping_mul(0xd134_2543_de82_ef95).wrapping_add(place as u64);
    T::pattern((steps.wrapping_mul(0x9e37_79b9_7f4a_7c15) >> 32) as u32)
}

#[cfg(test)]
mod tests {
    use super::Lent;

    #[test]
    fn every_change_is_seen() {
        for seed in [6, 7] {
            for place in 0..5 {
                let mut lent = Lent::<i32>::new(seed, 5);
                assert_eq!(lent.difference(&[]), None);
                lent.slice()[place] ^= 1;
                assert!(lent.difference(&[]).is_some());
            }
        }
    }

    #[test]
    fn what_is_written_is_compared() {
        let mut lent = Lent::<u8>::new(9, 4);
        lent.slice()[..2].copy_from_slice(&[0, 1]);
        assert_eq!(lent.difference(&[0, 1]), None);
        assert!(lent.difference(&[0]).is_some());
        assert!(lent.difference(&[0, 0]).is_some());
        assert!(lent.difference(&[0, 1, 1]).is_some());
    }

    #[test]
    fn cells_beside_the_buffer_are_compared() {
        let mut lent = Lent::<u8>::new(9, 4);
        let side = lent.side;
        lent.cells[side - 1] = 0;
        assert!(lent.difference(&[]).is_some());
        let mut lent = Lent::<u8>::new(9, 4);
        lent.cells[side + 4] = 0;
        assert!(lent.difference(&[]).is_some());
    }
}
