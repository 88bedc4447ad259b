//! Values next to the limit, from whole numbers alone: neither the reference's quotient nor
//! its limit says here what is due.

use compare::limit_edges::{divisor, first, late, Edge};
use compare::outcome::decoded;
use interface::{Decoder, Settings};
use reference::fault::Fault;
use reference::{Reference, SOUND};
use rivals::{Plain, Tuned};

/// U.
const UNIT: i128 = 16_384;

fn decoders() -> Vec<(&'static str, Box<dyn Decoder>)> {
    vec![
        ("reference", Box::new(SOUND)),
        ("plain", Box::new(Plain)),
        ("tuned", Box::new(Tuned)),
        #[cfg(feature = "library")]
        ("library", Box::new(widagbe::Widagbe)),
    ]
}

/// S and c of bit 0 at the end of the run.
fn end_of(decoder: &dyn Decoder, edge: &Edge) -> [i128; 2] {
    let outcome = decoded(decoder, &edge.case()).expect("a decoding");
    ["sums", "values"].map(|list| i128::from(outcome.first(list, 1)[0]))
}

/// The c that is due for a numerator from (U - 3/2) d on: 16,383, or 16,384 from
/// (U - 1/2) d on.
fn due(numerator: i128, divisor: i128) -> i128 {
    let size = numerator.abs();
    assert!(
        2 * size >= (2 * UNIT - 3) * divisor,
        "not next to the limit"
    );
    let from_half_on = 2 * size >= (2 * UNIT - 1) * divisor;
    numerator.signum() * if from_half_on { UNIT } else { UNIT - 1 }
}

/// Fails unless the run ends at its edge, with the c that is due.
fn check(decoder: &dyn Decoder, edge: &Edge) -> Result<(), String> {
    let [sum, value] = end_of(decoder, edge);
    let weighted = i128::from(edge.settings.weight) * i128::from(edge.cost);
    let numerator = -(256 * sum + weighted);
    if numerator.abs() != edge.size.into() {
        return Err(format!("numerator {numerator} of {edge:?}"));
    }
    let due = due(numerator, divisor(edge.count, edge.settings.ratio).into());
    if value != due {
        return Err(format!("{value} where {due} is due, {edge:?}"));
    }
    Ok(())
}

#[test]
fn values_at_every_edge() {
    for edges in [first(), late()] {
        for (name, decoder) in decoders() {
            for edge in &edges {
                let checked = check(decoder.as_ref(), edge);
                assert_eq!(checked, Ok(()), "{name}");
            }
        }
    }
}

/// Count, A, W and L, and the size of c that is due by hand.
#[test]
fn values_by_hand() {
    const BY_HAND: [(usize, u32, u32, i16, i128); 15] = [
        // A divisor of 1: no half between.
        (1, 1_023, 16_383, 1, 16_383),
        (1, 1_023, 16_384, 1, 16_384),
        (1, 1_023, 16_385, 1, 16_384),
        // Of 2: 32,767 is a half.
        (1, 1_022, 32_766, 1, 16_383),
        (1, 1_022, 32_767, 1, 16_384),
        (1, 1_022, 32_768, 1, 16_384),
        // Of 3: 49,150.5 would be one.
        (1, 1_021, 49_150, 1, 16_383),
        (1, 1_021, 49_151, 1, 16_384),
        (1, 1_021, 49_153, 1, 16_384),
        // Of 31,744, then of 32,768: a cost of one less than the half needs, the half, U d.
        (31, 0, 65_534, 7_935, 16_381),
        (31, 0, 65_534, 7_936, 16_384),
        (31, 0, 63_488, 8_192, 16_384),
        (32, 0, 65_534, 8_191, 16_382),
        (32, 0, 65_534, 8_192, 16_384),
        (32, 0, 32_768, 16_384, 16_384),
    ];
    for (count, ratio, weight, cost, size) in BY_HAND {
        for cost in [cost, -cost] {
            let edge = Edge {
                count,
                settings: Settings::new(weight, ratio, 1, 0),
                cost,
                size: i64::from(weight) * i64::from(cost.abs()),
            };
            let value = -size * i128::from(cost.signum());
            for (name, decoder) in decoders() {
                let found = end_of(decoder.as_ref(), &edge);
                assert_eq!(found, [0, value], "{name}, {edge:?}");
            }
        }
    }
}

/// The dividend cut to U d - 1 and then divided: with e = 4 and A = 1,023 the limit becomes
/// 16,383, and with every other divisor it is still reached.
#[test]
fn a_dividend_cut_below_the_limit_shows_with_a_divisor_of_one() {
    let cut = Reference {
        fault: Some(Fault::DividendCutBelowLimit),
    };
    let edges = first();
    let wrong = edges.iter().filter(|edge| check(&cut, edge).is_err());
    let wrong: Vec<&Edge> = wrong.collect();
    assert!(wrong.len() >= 4);
    for edge in wrong {
        assert_eq!((edge.count, edge.settings.ratio), (1, 1_023));
        assert_eq!(end_of(&cut, edge)[1].abs(), 16_383);
    }
}

/// No edge passes both with a limit of 16,383 and with one that begins at (U - 1) d.
#[test]
fn every_edge_can_fail() {
    for edge in first().iter().chain(&late()) {
        let fails = |fault| check(&Reference { fault: Some(fault) }, edge).is_err();
        assert!(
            fails(Fault::OneLess(16_384)) || fails(Fault::LimitFromOneLess),
            "{edge:?}"
        );
    }
}
