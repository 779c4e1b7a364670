//! A slice lent between guard bytes.

const GUARD: u8 = 0xa5;
const GUARD_BYTES: usize = 64;

/// A copy of some bytes with guard bytes on both sides.
#[derive(Clone, Debug)]
pub struct Lent {
    bytes: Vec<u8>,
    start: usize,
    length: usize,
}

impl Lent {
    /// `shift` moves the start, so that slices begin at every alignment.
    pub fn new(content: &[u8], shift: usize) -> Lent {
        let start = GUARD_BYTES + shift % 16;
        let mut bytes = vec![GUARD; start + content.len() + GUARD_BYTES];
        bytes[start..start + content.len()].copy_from_slice(content);
        Lent {
            bytes,
            start,
            length: content.len(),
        }
    }

    pub fn get(&self) -> &[u8] {
        &self.bytes[self.start..self.start + self.length]
    }

    pub fn get_mut(&mut self) -> &mut [u8] {
        &mut self.bytes[self.start..self.start + self.length]
    }

    /// Whether no guard byte was written.
    pub fn guards_hold(&self) -> bool {
        let before = &self.bytes[..self.start];
        let after = &self.bytes[self.start + self.length..];
        before.iter().chain(after).all(|&byte| byte == GUARD)
    }
}

#[cfg(test)]
mod tests {
    use super::*;

    #[test]
    fn guards_notice_a_write_on_either_side() {
        let mut lent = Lent::new(&[1, 2, 3], 5);
        lent.get_mut().fill(9);
        assert!(lent.guards_hold());
        let start = lent.start;
        for place in [0, start - 1, start + 3, start + 3 + GUARD_BYTES - 1] {
            let mut spoiled = lent.clone();
            spoiled.bytes[place] = 0;
            assert!(!spoiled.guards_hold());
        }
    }
}
