//! Rings of many points are closed, rectilinear and as long as they say, and the original cuts them
//! as the words do.

use calls::limits::RING_POINTS;
use calls::strips::{is_rectilinear, strips, strips_by_the_words, TickPoint};
use inputs::long_rings::{longest_rings, random_long_ring};
use inputs::Random;

fn check(ring: &[TickPoint]) {
    assert!(is_rectilinear(ring), "{ring:?}");
    let expected = strips_by_the_words(ring);
    let mut out = vec![[0; 4]; expected.len()];
    assert_eq!(strips(ring, &mut out), Ok(expected.len() as u64));
    assert_eq!(out, expected);
}

#[test]
fn the_longest_rings_have_all_points() {
    for ring in longest_rings(&mut Random::new(31)) {
        assert_eq!(ring.len(), RING_POINTS);
        check(&ring);
    }
}

#[test]
fn random_ones_have_no_more_points_than_asked_for() {
    let mut random = Random::new(32);
    for points in [16, 100, 256].repeat(100) {
        let ring = random_long_ring(&mut random, points);
        assert!(ring.len() <= points, "{} {points}", ring.len());
        check(&ring);
    }
}
