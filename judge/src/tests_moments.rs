//! The law between any two moments of a run, and that its check can fail.

use crate::cases::A;
use crate::edges::switch;
use crate::moments::{breach, foretold, telling_watch, Cost, Moment, Watch, WATCHED};
use crate::random::{task, Size, SMALL, TINY};
use crate::rng::Rng;
use crate::run::Offered;
use crate::script::expect;
use crate::text::read_text;

/// Runs by chance of tasks of several sizes; one in four is chosen among some for what the maps say on it.
fn some_watches(seed: u64, count: usize) -> Vec<Watch> {
    let mut rng = Rng::of_either_edition(seed);
    let of_size = |rng: &mut Rng, size: Size| {
        let task = task(rng, size);
        Watch::by_chance(rng, &task)
    };
    let some = |i: usize| match i % 4 {
        0 => of_size(&mut rng, TINY),
        1 => of_size(&mut rng, SMALL),
        2 => of_size(&mut rng, WATCHED),
        _ => telling_watch(&mut rng),
    };
    (0..count).map(some).collect()
}

/// A moment that no run made: the sum is the maps', none if one of them says none.
fn made_up(distances: &[Cost], paid: &[u64]) -> Moment {
    Moment { distances: distances.to_vec(), bound: distances.iter().copied().sum(), paid: paid.to_vec() }
}

fn broken(what: &str) -> Option<String> {
    Some(what.to_string())
}

#[test]
fn between_any_two_moments_no_map_and_no_sum_falls_by_more_than_was_paid() {
    let (mut fell, mut rose, mut lost) = (0, 0, 0);
    let (mut repeated, mut refused) = (0, 0);
    for watch in some_watches(8, 400) {
        assert_eq!(watch.breach(), None);
        let changes = watch.changes();
        (fell, rose, lost) = (fell + changes.fell, rose + changes.rose, lost + changes.lost);
        repeated += watch.offers.iter().filter(|offer| offer.2 == Offered::Repeated).count();
        refused += watch.offers.iter().filter(|offer| matches!(offer.2, Offered::Refused(_))).count();
    }
    assert!(fell > 300 && rose > 200 && lost > 15, "{} and {} and {}", fell, rose, lost);
    assert!(repeated > 500 && refused > 1_500, "{} and {}", repeated, refused);
}

/// Told at runs where something was paid and the bound at the start was a number above 0.
#[test]
fn the_bound_at_the_start_is_at_most_what_was_paid_so_far_and_the_bound_now() {
    let (mut paid, mut tight) = (0, 0);
    for watch in some_watches(9, 200) {
        let start = watch.moments[0].bound;
        for now in &watch.moments {
            assert!(foretold(start, now), "{:?} and {:?}", start, now);
            let telling = now.paid_in_all() > 0 && start.map_or(false, |start| start > 0);
            paid += usize::from(telling);
            tight += usize::from(telling && start == now.bound.map(|bound| bound + now.paid_in_all()));
        }
    }
    assert!(paid > 800 && tight > 25, "{} and {}", paid, tight);
}

#[test]
fn a_distance_that_falls_with_nothing_paid_is_told() {
    let earlier = made_up(&[Some(5), Some(5)], &[0, 0]);
    let later = made_up(&[Some(5), Some(4)], &[0, 0]);
    assert_eq!(breach(&earlier, &earlier), None);
    assert_eq!(breach(&earlier, &later), broken("map 1"));
    assert_eq!(breach(&later, &earlier), None);
    assert!(!foretold(earlier.bound, &later));
}

#[test]
fn a_sum_that_falls_with_nothing_paid_is_told_though_no_map_does() {
    let earlier = made_up(&[Some(5), Some(5)], &[0, 0]);
    let later = Moment { bound: Some(9), ..earlier.clone() };
    assert_eq!(breach(&earlier, &later), broken("the sum"));
}

#[test]
fn none_and_then_a_number_is_told_whatever_was_paid() {
    let earlier = made_up(&[Some(5), None], &[0, 0]);
    let later = made_up(&[Some(5), Some(0)], &[0, 1_000_000]);
    assert_eq!(breach(&earlier, &later), broken("map 1"));
    assert!(!foretold(earlier.bound, &later));
    assert_eq!(breach(&earlier, &Moment { distances: earlier.distances.clone(), ..later }), broken("the sum"));
}

/// The second map is paid and falls: its own column covers that, the first one's doesn't, and the sum needs both.
#[test]
fn what_the_first_map_alone_was_paid_is_not_enough() {
    let earlier = made_up(&[Some(5), Some(5)], &[0, 0]);
    let later = |paid: &[u64]| made_up(&[Some(5), Some(3)], paid);
    assert_eq!(breach(&earlier, &later(&[0, 2])), None);
    assert_eq!(breach(&earlier, &later(&[2, 0])), broken("map 1"));
    assert!(foretold(earlier.bound, &later(&[0, 2])));
    assert!(!foretold(earlier.bound, &later(&[0, 0])));
}

#[test]
fn with_a_sum_to_which_none_adds_nothing_the_law_would_be_false() {
    let earlier = made_up(&[Some(5), Some(5)], &[0, 0]);
    let later = made_up(&[None, Some(5)], &[1, 0]);
    assert_eq!(breach(&earlier, &later), None);
    assert_eq!(breach(&earlier, &Moment { bound: Some(5), ..later }), broken("the sum"));
}

#[test]
fn what_no_map_pays_is_in_no_moment() {
    let task = switch();
    let mut watch = Watch::begun(&task, &task.init);
    watch.offer(1, 0);
    assert_eq!(watch.moments[1].paid, [400_000, 0, 599_999]);
    assert_eq!(task.ops[0].cost, watch.moments[1].paid_in_all() + 1);
}

#[test]
fn a_breach_names_its_two_moments() {
    let task = read_text(A.as_bytes()).unwrap();
    let mut watch = Watch::begun(&task, &task.init);
    watch.offer(1, 0);
    watch.offer(1, 0);
    assert_eq!(watch.breach(), None);
    watch.moments[2].distances[0] = Some(3);
    watch.moments.push(watch.moments[1].clone());
    assert_eq!(watch.breach(), broken("map 0 between moments 2 and 3"));
}

#[test]
fn the_bound_now_of_case_a_falls_to_0_and_a_retry_leaves_it() {
    let script = format!("M\nM 1\nt {}\n{}\nR\nG\nM\nO 1 0\nM\nO 1 0\nM\nO 2 1\nM\nO 3 2\nM\nO 4 3\nM\n", A.len(), A);
    let printed = String::from_utf8(expect(script.as_bytes())).unwrap();
    assert!(printed.starts_with("refused 3 2\nbad\naccepted 3 4 3\n"));
    let bounds: Vec<&str> = printed.lines().filter(|line| line.starts_with("of")).collect();
    assert_eq!(bounds, ["of 4", "of 3", "of 3", "of 2", "of 1", "of 0"]);
}
