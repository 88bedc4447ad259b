//! Damage to alist texts: to their lists, numbers and bytes. Each kind of damage to
//! the lists brings one cause, or several.

use crate::alist::Plan;
use crate::random::Random;

#[derive(Clone, Copy, Debug, PartialEq, Eq)]
pub enum ListDamage {
    Excess,
    Zero,
    OtherIndex,
    HighIndex,
    ExchangedPlaces,
    LostPlace,
    TwicePlace,
    TwiceBoth,
    FewBits,
    NoChecks,
    LowDegree,
    HighDegree,
    Order,
    Unused,
    ManyBits,
    ManyChecks,
    Triples,
}

pub const LIST_DAMAGES: [ListDamage; 17] = [
    ListDamage::Excess,
    ListDamage::Zero,
    ListDamage::OtherIndex,
    ListDamage::HighIndex,
    ListDamage::ExchangedPlaces,
    ListDamage::LostPlace,
    ListDamage::TwicePlace,
    ListDamage::TwiceBoth,
    ListDamage::FewBits,
    ListDamage::NoChecks,
    ListDamage::LowDegree,
    ListDamage::HighDegree,
    ListDamage::Order,
    ListDamage::Unused,
    ListDamage::ManyBits,
    ListDamage::ManyChecks,
    ListDamage::Triples,
];

/// Some damage; those that make the text long come seldom.
pub fn some_damage(random: &mut Random) -> ListDamage {
    let count = LIST_DAMAGES.len();
    match random.below(100) {
        0 => LIST_DAMAGES[count - 3 + random.below(3)],
        _ => LIST_DAMAGES[random.below(count - 3)],
    }
}

/// Damages the lists of a plan.
pub fn damage_lists(random: &mut Random, plan: &mut Plan, damage: ListDamage) {
    match damage {
        ListDamage::Excess => plan.excess[random.below(2)] += random.between(1, 2),
        ListDamage::Zero => change_index(random, plan, |_, _| 0),
        ListDamage::OtherIndex => {
            change_index(random, plan, |random, most| random.between(1, most.max(1)))
        }
        ListDamage::HighIndex => change_index(random, plan, |random, most| {
            random.pick(&[most + 1, most + 1, most + 2, 65_535])
        }),
        ListDamage::ExchangedPlaces => exchange_places(random, plan),
        ListDamage::LostPlace => lose_place(random, plan),
        ListDamage::TwicePlace => name_twice(random, plan),
        ListDamage::TwiceBoth => name_twice_on_both(random, plan),
        ListDamage::FewBits => keep_bits(plan, random.below(3)),
        ListDamage::NoChecks => keep_checks(plan, 0),
        ListDamage::LowDegree => lower_degree(random, plan),
        ListDamage::HighDegree => raise_degree(random, plan),
        ListDamage::Order => change_order(random, plan),
        ListDamage::Unused => plan.columns.push(Vec::new()),
        ListDamage::ManyBits => add_columns(plan, 4_097 + random.below(2)),
        ListDamage::ManyChecks => add_rows(plan, 3, 2_049 + random.below(2), usize::MAX),
        ListDamage::Triples => add_rows(plan, 32, usize::MAX, 8_193 + random.below(30)),
    }
}

/// The place of some list that has an entry: the first, one time in two.
fn some_place(random: &mut Random, lists: &[Vec<usize>]) -> Option<usize> {
    let places: Vec<usize> = (0..lists.len())
        .filter(|&place| !lists[place].is_empty())
        .collect();
    match (places.is_empty(), random.below(2)) {
        (true, _) => None,
        (false, 0) => Some(places[0]),
        (false, _) => Some(random.pick(&places)),
    }
}

/// The lists of columns or of rows, and the largest index there.
fn some_side<'a>(random: &mut Random, plan: &'a mut Plan) -> (&'a mut Vec<Vec<usize>>, usize) {
    let (bits, checks) = (plan.columns.len(), plan.rows.len());
    match random.below(2) {
        0 => (&mut plan.columns, checks),
        _ => (&mut plan.rows, bits),
    }
}

/// Changes an index of one side.
fn change_index(random: &mut Random, plan: &mut Plan, index: fn(&mut Random, usize) -> usize) {
    let (lists, most) = some_side(random, plan);
    if let Some(place) = some_place(random, lists) {
        let entry = random.below(lists[place].len());
        lists[place][entry] = index(random, most);
    }
}

/// Two lists of one side exchange an index.
fn exchange_places(random: &mut Random, plan: &mut Plan) {
    let (lists, _) = some_side(random, plan);
    let places = [some_place(random, lists), some_place(random, lists)];
    if let [Some(first), Some(second)] = places {
        let from = random.below(lists[first].len());
        let to = random.below(lists[second].len());
        let index = lists[first][from];
        lists[first][from] = lists[second][to];
        lists[second][to] = index;
    }
}

fn lose_place(random: &mut Random, plan: &mut Plan) {
    let (lists, _) = some_side(random, plan);
    if let Some(place) = some_place(random, lists) {
        let entry = random.below(lists[place].len());
        lists[place].remove(entry);
    }
}

/// An index twice in a list of one side.
fn name_twice(random: &mut Random, plan: &mut Plan) {
    let (lists, _) = some_side(random, plan);
    if let Some(place) = some_place(random, lists) {
        let entry = random.below(lists[place].len());
        let index = lists[place][entry];
        lists[place].insert(entry, index);
    }
}

/// A place twice in its row and in its column.
fn name_twice_on_both(random: &mut Random, plan: &mut Plan) {
    if let Some(row) = some_place(random, &plan.rows) {
        let entry = random.below(plan.rows[row].len());
        let bit = plan.rows[row][entry];
        plan.rows[row].insert(entry, bit);
        name_in_column(plan, bit, row);
    }
}

/// Names a row once more in a column, if there is such a column.
fn name_in_column(plan: &mut Plan, bit: usize, row: usize) {
    if let Some(column) = plan.columns.get_mut(bit.wrapping_sub(1)) {
        column.push(row + 1);
    }
}

/// Leaves a place out of its row and of its column.
fn leave_out(plan: &mut Plan, row: usize, entry: usize) {
    let bit = plan.rows[row].remove(entry);
    if let Some(column) = plan.columns.get_mut(bit.wrapping_sub(1)) {
        if let Some(place) = column.iter().position(|&check| check == row + 1) {
            column.remove(place);
        }
    }
}

/// Keeps the first bits only.
fn keep_bits(plan: &mut Plan, count: usize) {
    plan.columns.truncate(count);
    for row in &mut plan.rows {
        row.retain(|&bit| bit <= count);
    }
}

/// Keeps the first checks only.
fn keep_checks(plan: &mut Plan, count: usize) {
    plan.rows.truncate(count);
    for column in &mut plan.columns {
        column.retain(|&check| check <= count);
    }
}

/// A row of 0 or 1 bit, or of two, which is allowed.
fn lower_degree(random: &mut Random, plan: &mut Plan) {
    if let Some(row) = some_place(random, &plan.rows) {
        let degree = random.pick(&[0, 1, 1, 2]);
        while plan.rows[row].len() > degree {
            let entry = random.below(plan.rows[row].len());
            leave_out(plan, row, entry);
        }
    }
}

/// A row of 33 bits or more, rising where there are so many bits.
fn raise_degree(random: &mut Random, plan: &mut Plan) {
    let Some(row) = some_place(random, &plan.rows) else {
        return;
    };
    let degree = random.pick(&[33, 33, 34, 259]);
    if random.once_in(2) && plan.columns.len() < degree {
        plan.columns.resize(degree, Vec::new());
    }
    for bit in 1..=plan.columns.len() {
        if plan.rows[row].len() < degree && !plan.rows[row].contains(&bit) {
            plan.rows[row].push(bit);
            name_in_column(plan, bit, row);
        }
    }
    plan.rows[row].sort_unstable();
    while let (true, Some(&bit)) = (plan.rows[row].len() < degree, plan.rows[row].last()) {
        plan.rows[row].push(bit);
        name_in_column(plan, bit, row);
    }
}

/// Exchanges two neighbours of a row.
fn change_order(random: &mut Random, plan: &mut Plan) {
    if let Some(row) = some_place(random, &plan.rows) {
        let degree = plan.rows[row].len();
        let entry = random.below(degree);
        plan.rows[row].swap(entry, (entry + 1) % degree);
    }
}

/// Adds empty columns until there are so many, unless filling them takes long.
fn add_columns(plan: &mut Plan, count: usize) {
    if plan.columns.iter().all(|column| column.len() < 50) {
        plan.columns.resize(count, Vec::new());
    }
}

/// Adds rows, each of the bits next to those of the one before, until there are so
/// many rows or triples.
fn add_rows(plan: &mut Plan, widest: usize, rows: usize, triples: usize) {
    let bits = plan.columns.len();
    let degree = bits.min(widest);
    let mut made: usize = plan
        .rows
        .iter()
        .map(|row| match row.len() {
            2 => 1,
            degree => degree.saturating_sub(2),
        })
        .sum();
    while degree > 2 && plan.rows.len() < rows && made < triples {
        let start = plan.rows.len() * degree;
        let mut row: Vec<usize> = (start..start + degree).map(|bit| bit % bits + 1).collect();
        row.sort_unstable();
        plan.add_row(row);
        made += degree - 2;
    }
}

/// Changes, removes, adds or exchanges numbers.
pub fn damage_numbers(random: &mut Random, numbers: &mut Vec<usize>) {
    if numbers.is_empty() {
        return;
    }
    let count = numbers.len();
    let place = random.below(count);
    let other = random.pick(&[0, 1, 2, 3, 65_535, 65_536, 65_537, 1_000_000]);
    match random.below(8) {
        0 => drop(numbers.remove(place)),
        1 => numbers.insert(place, other),
        2 => numbers.push(random.pick(&[0, 0, 1])),
        3 => drop(numbers.pop()),
        4 => numbers.swap(place, (place + 1) % count),
        5 => numbers[place] += random.pick(&[1, 65_536, 1 << 32]),
        6 => numbers[place] = numbers[place].saturating_sub(1),
        _ => numbers[place] = other,
    }
}

/// Bytes to put in: digits, separators, and what is neither.
pub const ODD_BYTES: [u8; 16] = [
    b'0', b'1', b'2', b'9', b' ', b'\n', b'\t', b'\r', 0x0B, 0x0C, 0, b'-', b'+', b'/', b':', 0xA0,
];

/// Changes, removes or adds a byte, or cuts the text.
pub fn damage_bytes(random: &mut Random, text: &mut Vec<u8>) {
    if text.is_empty() {
        return;
    }
    let place = random.below(text.len());
    match random.below(4) {
        0 => drop(text.remove(place)),
        1 => text.insert(place, random.pick(&ODD_BYTES)),
        2 => text.truncate(place),
        _ => text[place] = random.pick(&ODD_BYTES),
    }
}
