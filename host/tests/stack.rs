//! Every safe function on threads of little stack: none may ask for more than its caller has.

use canopyrail::{Reason, Value, Verdict, FILES};
use deliveries::{composed, damaged, Files, Random};
use std::thread;

const LITTLE: usize = 64 * 1024;

/// Runs the work on a thread of 64 KiB of stack, or of the system's least where that is more.
fn on_little_stack<T: Send>(work: impl FnOnce() -> T + Send) -> T {
    thread::scope(|scope| {
        let builder = thread::Builder::new().stack_size(LITTLE);
        builder.spawn_scoped(scope, work).unwrap().join().unwrap()
    })
}

fn lent(files: &Files) -> [&[u8]; FILES] {
    std::array::from_fn(|file| files[file].as_slice())
}

#[test]
fn a_judging_on_little_stack() {
    let files = composed(&mut Random::new(1), 16_384);
    let verdict = on_little_stack(|| canopyrail::judge(lent(&files)));
    assert_eq!(verdict, Verdict::Accepted([16_384; FILES]));
    for seed in 0..200 {
        let (files, _) = damaged(&mut Random::new(seed));
        let there = independent::line(&independent::judge(lent(&files)));
        let verdict = on_little_stack(|| canopyrail::try_judge(lent(&files)));
        assert_eq!(canopyrail::line(&verdict.unwrap()), there, "seed {seed}");
    }
}

#[test]
fn a_counting_on_little_stack() {
    let files = composed(&mut Random::new(1), 16_384);
    assert!(on_little_stack(|| canopyrail::grid(lent(&files))).is_zero());
    for seed in 0..200 {
        let (files, _) = damaged(&mut Random::new(seed));
        let there = independent::grid(lent(&files));
        let grid = on_little_stack(|| {
            let mut sum = canopyrail::Grid::default();
            sum.add(&canopyrail::try_grid(lent(&files)).unwrap())
                .unwrap();
            sum
        });
        assert_eq!(*grid.rows(), there, "seed {seed}");
    }
}

#[test]
fn many_judgings_at_once_on_little_stack() {
    let files = composed(&mut Random::new(2), 256);
    thread::scope(|scope| {
        for _ in 0..16 {
            scope.spawn(|| {
                let verdict = on_little_stack(|| canopyrail::judge(lent(&files)));
                assert_eq!(verdict, Verdict::Accepted([256; FILES]));
            });
        }
    });
}

#[test]
fn records_on_little_stack() {
    let files = composed(&mut Random::new(3), 8);
    for (place, bytes) in files.iter().enumerate() {
        let file = place + 1;
        on_little_stack(|| {
            assert_eq!(canopyrail::count(file, bytes), 8);
            let values = canopyrail::read(file, bytes, 8).unwrap();
            let mut room = [0; canopyrail::LONGEST];
            let length = canopyrail::write(file, &values, &mut room).unwrap();
            assert_eq!(room[..length], bytes[7 * length..]);
            let refused = canopyrail::write(file, &[Value::Missing], &mut room).unwrap_err();
            assert_eq!(refused.reason, Reason::NotGiven);
        });
    }
}

/// On a thread that has the stack, the same without a thread more.
#[test]
fn a_judging_on_a_stack_that_does() {
    let (files, _) = damaged(&mut Random::new(4));
    let builder = thread::Builder::new().stack_size(2 * canopyrail::STACK);
    let found = thread::scope(|scope| {
        // SAFETY: the thread has twice the stack that a judging takes, and a counting.
        let work = || unsafe {
            (
                canopyrail::judge_here(lent(&files)),
                canopyrail::grid_here(lent(&files)),
            )
        };
        builder.spawn_scoped(scope, work).unwrap().join().unwrap()
    });
    let beside = (
        canopyrail::judge(lent(&files)),
        canopyrail::grid(lent(&files)),
    );
    assert_eq!(found, beside);
    assert!(!beside.1.is_zero());
}
