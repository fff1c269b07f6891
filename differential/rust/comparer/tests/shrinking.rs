//! Making a case smaller ends at a limit that is counted in steps, never by the clock.

mod support;

use comparer::report::report;
use comparer::shrink::{shrink, shrink_within, LIMIT};
use comparer::{Case, Comparer, Difference, Input, Library, Rng};
use support::{exported, Call, RightPack, Slices, RIGHT_LIBRARY};

/// A packer that answers one byte too many for a plane of two rows or more.
struct OneTooMany;

impl Call for OneTooMany {
    fn call(slices: Slices, width: usize, height: usize) -> i64 {
        let answer = RightPack::call(slices, width, height);
        answer + i64::from(answer > 0 && height > 1)
    }
}

const LIBRARY: Library = Library { pack: exported::<OneTooMany>, ..RIGHT_LIBRARY };
const SMALLEST: &str = "pp 1 2 0000 EE*4";

/// A case of 60 x 50 noise that differs.
fn found(comparer: &mut Comparer) -> Box<Difference> {
    let (width, height) = (60, 50);
    let samples = Rng::new(1).bytes(width * height);
    let case = Case::pack(width, height, &samples, &[0xEE; 7000]).to_owned();
    comparer.check(&Input::Call(case)).expect_err("a difference")
}

#[test]
fn the_smallest_case_is_found_within_the_limit() {
    let comparer = &mut Comparer::new(LIBRARY);
    let difference = found(comparer);
    assert_eq!(shrink(comparer, difference).case.to_string(), SMALLEST);
}

#[test]
fn the_same_limit_gives_the_same_case_at_the_same_cost() {
    let shrunk = |limit| {
        let comparer = &mut Comparer::new(LIBRARY);
        let difference = found(comparer);
        let (smaller, cost) = shrink_within(comparer, difference, limit);
        (smaller.case.to_string(), cost)
    };
    for limit in [20_000, 50_000, LIMIT] {
        assert_eq!(shrunk(limit), shrunk(limit));
    }
}

#[test]
fn a_limit_that_is_reached_gives_the_smallest_case_so_far() {
    let comparer = &mut Comparer::new(LIBRARY);
    let difference = found(comparer);
    let (unchanged, cost) = shrink_within(comparer, difference.clone(), 0);
    assert_eq!((unchanged.case, cost), (difference.case.clone(), 0));
    let (smallest, needed) = shrink_within(comparer, difference.clone(), LIMIT);
    assert!(needed < LIMIT / 1000, "{needed}");
    let mut byte_count = difference.case.byte_count();
    for limit in [needed / 64, needed / 16, needed / 4, needed - 1, needed] {
        let (smaller, cost) = shrink_within(comparer, difference.clone(), limit);
        assert!(cost <= limit, "{cost} of {limit}");
        assert!(smaller.case.byte_count() <= byte_count, "{smaller:?}");
        assert!(comparer.check(&smaller.case).is_err(), "no difference left: {smaller:?}");
        byte_count = smaller.case.byte_count();
    }
    assert_eq!(byte_count, smallest.case.byte_count());
}

/// The case as it was found has 10,000 bytes, which no failed test prints.
#[test]
fn a_failed_test_prints_little() {
    let comparer = &mut Comparer::new(LIBRARY);
    let difference = found(comparer);
    assert!(difference.to_string().len() > 10_000);
    let file = "a-failed-test-prints-little.txt";
    let path = concat!(env!("CARGO_MANIFEST_DIR"), "/../../target/a-failed-test-prints-little.txt");
    let printed = report(&difference, file);
    for text in [format!("{difference:?}"), printed] {
        assert!(text.len() <= 20 * 200 && text.lines().count() <= 20, "{text}");
        assert!(text.contains("...") && text.contains("(3000 bytes)"), "{text}");
    }
    let complete = std::fs::read_to_string(path).unwrap();
    std::fs::remove_file(path).unwrap();
    assert_eq!(complete, difference.to_string());
}
