use super::{ordered, Lane};
use gate_twin::random::Random;
use std::collections::BTreeMap;

fn any_lanes(random: &mut Random) -> Vec<Lane> {
    let mut targets: BTreeMap<usize, Vec<usize>> = BTreeMap::new();
    for _ in 0..random.between(2, 12) {
        let (row, target) = (random.below(40), random.below(40));
        targets.entry(target).or_default().push(row);
    }
    targets.into_iter().map(|(target, jumps)| Lane::new(target, jumps)).collect()
}

/// Each pair of lanes, the one that stands nearer to the listing first.
fn pairs(lanes: &[Lane]) -> impl Iterator<Item = (&Lane, &Lane)> {
    lanes.iter().enumerate().flat_map(move |(number, outer)| lanes[..number].iter().map(move |inner| (inner, outer)))
}

#[test]
fn lanes_cross_hardly_more_than_they_must() {
    let (mut crossings, mut least) = (0, 0);
    for case in 0..500 {
        let lanes = ordered(any_lanes(&mut Random::new(24, case)));
        crossings += pairs(&lanes).map(|(inner, outer)| outer.crossings(inner)).sum::<usize>();
        // Whichever of two stands nearer, they cross at least so often.
        least += pairs(&lanes).map(|(inner, outer)| outer.crossings(inner).min(inner.crossings(outer))).sum::<usize>();
    }
    assert!(least > 1_000 && crossings * 100 <= least * 102, "{crossings} crossings, {least} at least");
}

#[test]
fn lanes_one_in_another_do_not_cross() {
    let lanes = ordered(vec![Lane::new(0, vec![9]), Lane::new(8, vec![1]), Lane::new(3, vec![5]), Lane::new(7, vec![6])]);
    assert!(pairs(&lanes).all(|(inner, outer)| outer.crossings(inner) == 0), "{lanes:?}");
}
