//! Deliveries whose places or ids all fall on the same hints, in a table of either size: hints don't do, and halving must say what the
//! independent checker says. Random deliveries never get here, since a look-up has 32 places to try.

mod places;

use canopyrail::{Verdict, FILES};
use places::{delivery, falling_together, points, WHOLE};

/// Places of the longer table of hints repeat with this period: the product of the two primes that a key is taken by (crates/index,
/// hint.rt).
const PERIOD: u64 = 32_749 * 32_719;

/// The prime of the shorter table, which serves up to 512 records a file.
const FEW: u64 = 1_021;

fn lines(files: &[Vec<u8>; FILES]) -> (Verdict, String, String) {
    let lent: [&[u8]; FILES] = std::array::from_fn(|file| files[file].as_slice());
    let ours = canopyrail::judge(lent);
    assert_eq!(*canopyrail::grid(lent).rows(), independent::grid(lent));
    (
        ours,
        canopyrail::line(&ours),
        independent::line(&independent::judge(lent)),
    )
}

#[test]
fn places_on_the_same_hints() {
    held(PERIOD, 600);
}

/// Not only on the same hints: with one number, so that 54 compares places exactly.
#[test]
fn places_with_the_same_number() {
    held(WHOLE, 200);
    held(WHOLE, 600);
}

/// Ids that start at one place of the shorter table and go on alike: of 32 tries none is left for the 33rd.
#[test]
fn ids_on_the_same_hints_of_a_short_table() {
    for many in [32, 33, 60] {
        // an id's key is its successor; keys of one multiple of 32,749 step alike
        let ids: Vec<u64> = (0..many)
            .map(|i| (1 + i / 30 * 32_719) * 32_749 + i % 30 * FEW)
            .map(|key| key + FEW - key % FEW - 1)
            .collect();
        let (verdict, ours, theirs) = lines(&points(&ids));
        assert_eq!(ours, theirs);
        assert_eq!(verdict, Verdict::Accepted([1, ids.len(), 0, 0, 0, 0, 0, 0]));
        let mut twins = ids;
        let last = twins.len() - 1;
        twins[last] = twins[last / 2];
        let (_, ours, theirs) = lines(&points(&twins));
        assert_eq!(ours, theirs);
        assert_eq!(ours, format!("NO 30 2 {:05} 01\n", last + 1));
    }
}

fn held(period: u64, many: usize) {
    let places = falling_together(many, period);
    let (verdict, ours, theirs) = lines(&delivery(&places));
    assert_eq!(ours, theirs);
    assert_eq!(
        verdict,
        Verdict::Accepted([1, 2 * many, 0, 0, 0, 0, many, 0])
    );

    // the last node where an earlier one is: told with the earlier one's number
    let mut twins = places;
    twins[many - 1] = twins[many / 2];
    let (verdict, ours, theirs) = lines(&delivery(&twins));
    assert_eq!(ours, theirs);
    match verdict {
        Verdict::Broken(b) => assert_eq!(
            (b.reason.number(), b.record, b.other),
            (54, many, many as u64 / 2 + 1)
        ),
        other => panic!("{other:?}"),
    }
}
