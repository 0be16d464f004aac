//! Making an input that shows a difference small enough to read.

/// Takes octets out for as long as `differs` stays true: first long stretches, then shorter ones,
/// then single octets.
pub fn shrink(octets: &[u8], differs: &mut dyn FnMut(&[u8]) -> bool) -> Vec<u8> {
    let mut smallest = octets.to_vec();
    let mut stretch = (smallest.len() / 2).max(1);
    loop {
        let before = smallest.len();
        let mut start = 0;
        while start < smallest.len() {
            let end = (start + stretch).min(smallest.len());
            let shorter = [&smallest[..start], &smallest[end..]].concat();
            if differs(&shorter) {
                smallest = shorter;
            } else {
                start += stretch;
            }
        }
        if stretch > 1 {
            stretch /= 2;
        } else if smallest.len() == before {
            return smallest;
        }
    }
}

#[cfg(test)]
mod tests {
    use super::shrink;

    #[test]
    fn what_does_not_matter_goes() {
        let octets: Vec<u8> = (0..200).collect();
        let smallest = shrink(&octets, &mut |octets| octets.contains(&17) && octets.contains(&171));
        assert_eq!(smallest, vec![17, 171]);
    }
}
