//! Request A12: what joins, in which order it is refused, and what the joined chain does.

use paper::numbers::{forward, inverse, join};

fn shift(from: [i64; 2], to: [i64; 2], numbers: [i64; 3]) -> Vec<i64> {
    let head = [84, 0, from[0], from[1], to[0], to[1]];
    [&head[..], &numbers, &[7, 8, 9, 10]].concat()
}

const A: [i64; 2] = [3, 2_000_000];
const B: [i64; 2] = [5, 2_000_000];
const C: [i64; 2] = [7, 2_010_000];

#[test]
fn two_that_join() {
    let (first, second) = (shift(A, B, [1, 2, 3]), shift(B, C, [40, 50, 60]));
    let both = [first.clone(), second.clone()].concat();
    for year in [2009, 2021] {
        assert_eq!(join(year, &first, year, &second), Ok(both.clone()));
        assert_eq!(join(year, &first, year, &[]), Ok(first.clone()));
        assert_eq!(join(year, &[], year, &second), Ok(second.clone()));
        assert_eq!(join(year, &[], year, &[]), Ok(vec![]));
        let from = [1, 4, A[0], A[1], -200_000_000_000, 600_000_000_000, 5];
        let half = forward(year, &first, &from).expect("accepted");
        let there = forward(year, &both, &from);
        assert_eq!(there, forward(year, &second, &half));
        assert_eq!(there, Ok([1, 4, C[0], C[1], -199_999_999_959, 600_000_000_052, 68]));
        assert_eq!(inverse(year, &both, &there.expect("accepted")), Ok(from));
    }
}

#[test]
fn in_which_order() {
    let good = shift(A, B, [1, 2, 3]);
    let round = [shift(A, B, [0; 3]), shift(B, A, [0; 3])].concat();
    let bad = shift(A, B, [100_000_001, 0, 0]);
    let three = shift([3, 0], B, [0; 3]);
    // A chain's own number, the first's before the second's.
    assert_eq!(join(2021, &three, 2021, &bad), Err(3));
    assert_eq!(join(2021, &bad, 2021, &three), Err(2));
    assert_eq!(join(2021, &bad, 2010, &good), Err(2));
    assert_eq!(join(2021, &three, 2010, &good), Err(3));
    assert_eq!(join(2010, &three, 2021, &three), Err(2));
    assert_eq!(join(2021, &good, 2010, &three), Err(2));
    assert_eq!(join(2021, &round.repeat(5), 2021, &bad), Err(6));
    assert_eq!(join(2021, &good.repeat(2), 2021, &bad), Err(5));
    assert_eq!(join(2021, &[], 2009, &shift([6, 2_000_000], A, [0; 3])), Err(25));
    // 5, then 6, then 25.
    assert_eq!(join(2021, &good, 2009, &round.repeat(4)), Err(5));
    assert_eq!(join(2021, &round, 2009, &round.repeat(4)), Err(6));
    assert_eq!(join(2021, &round, 2009, &round.repeat(3)), Err(25));
    assert_eq!(join(2009, &round, 2021, &[]), Err(25));
    assert_eq!(join(2009, &[], 2021, &[]), Err(25));
    assert_eq!(join(2021, &round, 2021, &round.repeat(3)), Ok(round.repeat(4)));
    assert_eq!(join(2021, &[], 2021, &round.repeat(4)), Ok(round.repeat(4)));
    assert_eq!(join(2021, &good[1..], 2010, &bad), Err(255));
    assert_eq!(join(2021, &three, 2021, &good[..12]), Err(255));
}
