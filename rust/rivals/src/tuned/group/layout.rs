//! In what order the lanes hold a code: checks by degree, bits by the number of their checks.

use crate::plain::records::Code;

/// Checks of one degree, or bits in the same number of checks.
pub struct Class {
    /// The degree or the number of checks.
    pub size: usize,
    pub members: usize,
}

/// Where a check comes from.
pub struct Origin {
    /// 3 for a check of two bits too.
    pub degree: usize,
    /// The first triple and the first auxiliary.
    pub triple: usize,
    pub auxiliary: usize,
}

pub struct Layout {
    pub check_classes: Vec<Class>,
    pub bit_classes: Vec<Class>,
    /// The checks in their order here.
    pub origins: Vec<Origin>,
    /// For each bit of each check, how many bytes it is from the first; a check of two bits has
    /// the blank as its third.
    pub offsets: Vec<u32>,
    /// For each bit, its place here. The blank's is behind all bits.
    pub places: Vec<u16>,
    pub triples: usize,
    pub auxiliaries: usize,
}

/// The members of each size, of sizes in rising order.
fn classes(sizes: impl Iterator<Item = usize>) -> Vec<Class> {
    let mut classes: Vec<Class> = Vec::new();
    for size in sizes {
        match classes.last_mut() {
            Some(class) if class.size == size => class.members += 1,
            _ => classes.push(Class { size, members: 1 }),
        }
    }
    classes
}

/// How many bytes a place is from the first.
fn offset(place: usize) -> u32 {
    16 * place as u32
}

/// Where each check comes from, in the order of the code.
fn origins(code: &Code) -> impl Iterator<Item = Origin> + '_ {
    let (mut triple, mut auxiliary) = (0, code.bits);
    code.degrees.iter().map(move |&degree| {
        let degree = usize::from(degree).max(3);
        let origin = Origin {
            degree,
            triple,
            auxiliary,
        };
        triple += degree - 2;
        auxiliary += degree - 3;
        origin
    })
}

impl Layout {
    /// The layout of a code whose bits have these counts.
    pub fn of(code: &Code, counts: &[u16]) -> Layout {
        let mut order: Vec<u16> = (0..code.bits as u16).collect();
        order.sort_by_key(|&bit| counts[usize::from(bit)]);
        let mut places = vec![0; code.bits];
        for (place, &bit) in (0..).zip(&order) {
            places[usize::from(bit)] = place;
        }
        let sizes = order.iter().map(|&bit| counts[usize::from(bit)].into());
        let mut layout = Layout {
            check_classes: Vec::new(),
            bit_classes: classes(sizes),
            origins: Vec::with_capacity(code.degrees.len()),
            offsets: Vec::with_capacity(code.indices.len() + code.pairs),
            places,
            triples: code.triples(),
            auxiliaries: code.variables() - code.bits,
        };
        layout.place_checks(code);
        layout
    }

    fn place_checks(&mut self, code: &Code) {
        let mut checks: Vec<(&[u16], Origin)> = code.checks().zip(origins(code)).collect();
        checks.sort_by_key(|(_, origin)| origin.degree);
        for (check, origin) in checks {
            let places = check.iter().map(|&bit| self.places[usize::from(bit)]);
            self.offsets
                .extend(places.map(|place| offset(place.into())));
            if check.len() == 2 {
                self.offsets.push(offset(code.bits));
            }
            self.origins.push(origin);
        }
        self.check_classes = classes(self.origins.iter().map(|origin| origin.degree));
    }
}
