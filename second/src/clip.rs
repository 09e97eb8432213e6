//! The first clip of a list of totals.

use crate::voice::Pair;

#[derive(Clone, Copy, Debug, PartialEq, Eq)]
pub enum Where {
    Left,
    Right,
}

fn clips(total: i32) -> bool {
    !(-32_768..=32_767).contains(&total)
}

/// The first pair, counted from 0, and side that clips, left before right.
pub fn first_clip(totals: &[Pair]) -> Option<(usize, Where)> {
    for (index, &(left, right)) in totals.iter().enumerate() {
        if clips(left) {
            return Some((index, Where::Left));
        }
        if clips(right) {
            return Some((index, Where::Right));
        }
    }
    None
}

#[cfg(test)]
mod tests {
    use super::*;

    #[test]
    fn left_before_right() {
        assert_eq!(first_clip(&[]), None);
        assert_eq!(first_clip(&[(32_767, -32_768)]), None);
        assert_eq!(
            first_clip(&[(0, 0), (32_768, 32_768)]),
            Some((1, Where::Left))
        );
        assert_eq!(
            first_clip(&[(0, -32_769), (40_000, 0)]),
            Some((0, Where::Right))
        );
    }
}
