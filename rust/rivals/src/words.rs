//! The reflector and the sum of two words, as iterators write them.

pub fn is_binary(word: &[u8]) -> bool {
    word.iter().fold(0, |most, &entry| most.max(entry)) <= 1
}

/// Costs negated where the word has 1.
pub fn reflect(costs: &[i16], word: &[u8], result: &mut [i16]) -> u32 {
    if word.len() != costs.len() {
        return 12;
    }
    if costs.iter().fold(0, |least, &cost| least.min(cost)) < -32_767 {
        return 13;
    }
    if !is_binary(word) {
        return 15;
    }
    if result.len() < costs.len() {
        return 10;
    }
    for ((entry, &cost), &bit) in result.iter_mut().zip(costs).zip(word) {
        *entry = if bit == 1 { -cost } else { cost };
    }
    0
}

/// The sum of two words modulo 2.
pub fn add_words(word: &[u8], other: &[u8], sum: &mut [u8]) -> u32 {
    if other.len() != word.len() {
        return 12;
    }
    if !is_binary(word) || !is_binary(other) {
        return 15;
    }
    if sum.len() < word.len() {
        return 10;
    }
    for ((entry, &bit), &second) in sum.iter_mut().zip(word).zip(other) {
        *entry = bit ^ second;
    }
    0
}
