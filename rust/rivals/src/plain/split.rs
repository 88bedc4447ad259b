//! Splitting without a queue. Of a check of degree d the items come in the
//! order bits 0..d, then auxiliaries; triple j takes items 2j and 2j + 1 and
//! item d + j, which is the auxiliary it makes. The last triple makes none and
//! takes item 2d - 4, the last there is. A check of two bits has a blank there.

use super::records::Code;

/// The index of a blank.
const BLANK: u16 = 0xFFFF;

/// Writes triples and counts into lists that have the room.
pub fn fill(code: &Code, triples: &mut [u16], counts: &mut [u16]) {
    let mut slots = triples.chunks_exact_mut(3);
    let mut made = code.bits;
    for check in code.checks() {
        let degree = check.len();
        let item = |place: usize| match check.get(place) {
            Some(&bit) => bit,
            None => (made + place - degree) as u16,
        };
        for (j, slot) in (0..degree - 2).zip(&mut slots) {
            let third = (degree + j).min(2 * degree - 4);
            slot.copy_from_slice(&[item(2 * j), item(2 * j + 1), item(third)]);
        }
        if degree > 2 {
            made += degree - 3;
        } else if let Some(slot) = slots.next() {
            slot.copy_from_slice(&[check[0], check[1], BLANK]);
        }
    }
    counts[..code.bits].fill(0);
    counts[code.bits..made].fill(2);
    for &bit in &code.indices {
        counts[usize::from(bit)] += 1;
    }
}
