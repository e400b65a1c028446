use super::super::time_axis::{fitted, laid, Strip, EDGE, LEFT, WIDTH};
use super::Numbers;

/// Points of all sorts: near, far, and at the ends of what a cycle may be.
fn drawn(numbers: &mut Numbers) -> (Vec<i64>, f64) {
    let step = [3, 40, 900, 1 << 22][numbers.below(4) as usize];
    let count = 1 + numbers.below(40);
    let mut at = numbers.below(2) as i64 * numbers.below(1 << 32) as i64;
    let mut points = Vec::new();
    for _ in 0..count {
        points.push(at);
        at += 1 + numbers.below(step) as i64;
    }
    let scale = [0.02, 0.5, 1.7, 4.25, 8.5, 22.0][numbers.below(6) as usize];
    (points, scale)
}

fn each(mut look: impl FnMut(&[i64], &[Strip])) {
    let mut numbers = Numbers(1);
    for _ in 0..300 {
        let (points, scale) = drawn(&mut numbers);
        look(&points, &laid(&points, scale, 20.0));
        look(&points, &fitted(&points, scale.min(8.5), 60.0));
    }
}

#[test]
fn a_later_cycle_never_stands_before_an_earlier_one() {
    each(|points, strips| {
        for strip in strips {
            let tried = points.iter().flat_map(|p| p - 3..p + 70);
            let ends = [0, strip.from() - 1, strip.from(), strip.until(), i64::MAX];
            let mut cycles: Vec<i64> = tried.chain(ends).collect();
            cycles.sort_unstable();
            let places: Vec<f64> = cycles.iter().map(|&c| strip.x(c)).collect();
            assert!(places.windows(2).all(|w| w[0] <= w[1]));
        }
        let ends = strips.windows(2).all(|w| w[0].until() <= w[1].from());
        assert!(ends);
    });
}

#[test]
fn each_cycle_to_show_stands_in_one_strip_and_no_strip_is_too_wide() {
    each(|points, strips| {
        for &point in points {
            let holding = strips.iter().filter(|s| s.holds(point));
            assert_eq!(holding.count(), 1, "{point}");
        }
        for strip in strips {
            assert!(strip.right() <= LEFT + WIDTH + 0.001);
            assert!(strip.pieces.iter().all(|p| p.from < p.until && p.x >= LEFT));
            assert!(
                (EDGE..=LEFT).contains(&strip.x(strip.from() - 1)) || strip.pieces[0].left_out > 0
            );
        }
    });
}

#[test]
fn two_cycles_of_a_piece_stand_as_far_apart_as_the_scale_says() {
    each(|_, strips| {
        for strip in strips {
            for p in &strip.pieces {
                let apart = strip.x(p.from + 1) - strip.x(p.from);
                assert!((apart - strip.scale).abs() < 1e-6);
            }
        }
    });
}

#[test]
fn a_gap_tells_all_cycles_that_are_left_out() {
    let strips = laid(&[0, 10, 20_000_000, 20_000_050], 10.0, 20.0);
    let pieces: Vec<_> = strips.iter().flat_map(|s| &s.pieces).collect();
    assert_eq!(pieces.iter().filter(|p| p.left_out > 0).count(), 1);
    each(|_, strips| {
        let mut end = None;
        for p in strips.iter().flat_map(|s| &s.pieces) {
            assert_eq!(p.from - end.unwrap_or(p.from), p.left_out);
            end = Some(p.until);
        }
    });
}

#[test]
fn short_waits_are_not_broken_out() {
    let strips = fitted(&[0, 60], 1.0, 20.0);
    assert_eq!(strips.len(), 1);
    assert_eq!(strips[0].pieces.len(), 1);
}

#[test]
fn the_names_of_the_axis_do_not_meet() {
    each(|_, strips| {
        for strip in strips {
            let places: Vec<f64> = strip.ticks(50.0).iter().map(|&c| strip.x(c)).collect();
            assert!(places.windows(2).all(|w| w[0] + 49.99 <= w[1]));
        }
    });
}
