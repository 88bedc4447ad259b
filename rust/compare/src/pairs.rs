//! Pairs of causes that meet.

/// Every two of these causes, the earlier one first.
pub fn pairs_of(causes: &[u32]) -> Vec<[u32; 2]> {
    let mut pairs = Vec::new();
    for (place, &first) in causes.iter().enumerate() {
        pairs.extend(pairs_with(&[first], &causes[place + 1..]));
    }
    pairs
}

/// Each of these causes with each of the later ones.
pub fn pairs_with(earlier: &[u32], later: &[u32]) -> Vec<[u32; 2]> {
    let with_later = |&first: &u32| later.iter().map(move |&second| [first, second]);
    earlier.iter().flat_map(with_later).collect()
}
