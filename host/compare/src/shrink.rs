//! The smallest list that still shows a difference.

/// Drops stretches of the list, long ones first, as long as what is left still
/// differs.
pub fn fewest<T: Clone>(items: &[T], mut differs: impl FnMut(&[T]) -> bool) -> Vec<T> {
    let mut left = items.to_vec();
    let mut stretch = left.len();
    while stretch > 0 {
        left = without_stretches(left, stretch, &mut differs);
        stretch /= 2;
    }
    left
}

fn without_stretches<T: Clone>(
    mut left: Vec<T>,
    stretch: usize,
    differs: &mut impl FnMut(&[T]) -> bool,
) -> Vec<T> {
    let mut at = 0;
    while at < left.len() {
        let end = (at + stretch).min(left.len());
        let fewer = [&left[..at], &left[end..]].concat();
        if differs(&fewer) {
            left = fewer;
        } else {
            at = end;
        }
    }
    left
}

#[cfg(test)]
mod tests {
    use super::fewest;

    #[test]
    fn what_is_needed_stays() {
        let items: Vec<u32> = (0..1_000).collect();
        let needs = |left: &[u32]| left.contains(&17) && left.contains(&803);
        assert_eq!(fewest(&items, needs), [17, 803]);
    }

    #[test]
    fn nothing_is_needed() {
        assert!(fewest(&[1, 2, 3], |_| true).is_empty());
        assert_eq!(fewest(&[1, 2, 3], |left| left.len() == 3), [1, 2, 3]);
    }

    #[test]
    fn few_tries_are_enough() {
        let items: Vec<u32> = (0..9_999).collect();
        let mut tries = 0;
        let left = fewest(&items, |left| {
            tries += 1;
            left.contains(&5_000)
        });
        assert_eq!(left, [5_000]);
        assert!(tries < 100, "{tries}");
    }
}
