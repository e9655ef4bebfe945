//! The triangle calls: both triangles, both solves, the three refusals; and a pair of triangles.

use tevalumi::triangle::{solve_dense, Refusal, Triangle};

/// 2 x0 = 2, 3 x0 + 4 x1 = 11, 5 x1 + 8 x2 = 26: by columns, with a diagonal.
const LOWER: Triangle = Triangle {
    upper: false,
    size: 3,
    entries: 2,
    starts: &[0, 1, 2, 2],
    rows: &[1, 2],
    vals: &[3.0, 5.0],
    diag: Some(&[2.0, 4.0, 8.0]),
};

/// The same numbers mirrored.
const UPPER: Triangle = Triangle {
    upper: true,
    size: 3,
    entries: 2,
    starts: &[0, 0, 1, 2],
    rows: &[0, 1],
    vals: &[5.0, 3.0],
    diag: Some(&[8.0, 4.0, 2.0]),
};

#[test]
fn both_triangles_are_solved() {
    let mut values = [2.0, 11.0, 26.0, 7.5];
    LOWER.solve_dense(&mut values).unwrap();
    assert_eq!(values, [1.0, 2.0, 2.0, 7.5]);
    let mut values = [26.0, 11.0, 2.0];
    UPPER.solve_dense(&mut values).unwrap();
    assert_eq!(values, [2.0, 2.0, 1.0]);
}

#[test]
fn a_sparse_solve_lists_what_it_visits() {
    let mut list = [1, 77, 77, 77];
    let mut values = [f64::NAN, 8.0, f64::NAN, 7.5];
    let listed = LOWER.solve_sparse(&mut list, 1, &mut values).unwrap();
    assert_eq!((listed, list), (2, [1, 2, 77, 77]));
    assert_eq!(values, [0.0, 2.0, -1.25, 7.5]);

    let mut list = [2, 0, 77];
    let mut values = [16.0, f64::NAN, 4.0];
    let listed = UPPER.solve_sparse(&mut list, 2, &mut values).unwrap();
    assert_eq!((listed, list), (3, [2, 0, 1]));
    assert_eq!(values, [2.9375, -1.5, 2.0]);
}

#[test]
fn every_refusal_changes_nothing() {
    let refused = |triangle: Triangle, list: [usize; 3], values: [f64; 3]| {
        let (mut list_after, mut values_after) = (list, values);
        let refusal = triangle
            .solve_sparse(&mut list_after, 2, &mut values_after)
            .unwrap_err();
        assert_eq!(list_after, list);
        let bits = |of: [f64; 3]| of.map(f64::to_bits);
        assert_eq!(bits(values_after), bits(values));
        refusal
    };
    let fine = [1.0; 3];
    let bad = [
        Triangle { size: 97, ..LOWER },
        Triangle { size: 4, ..LOWER },
        Triangle {
            entries: usize::MAX,
            ..LOWER
        },
        Triangle {
            starts: &[0, 2, 1, 2],
            ..LOWER
        },
        Triangle {
            starts: &[0, 1, 2],
            ..LOWER
        },
        Triangle {
            rows: &[1, 3],
            ..LOWER
        },
        Triangle {
            upper: true,
            ..LOWER
        },
        Triangle {
            diag: Some(&[2.0, -0.0, 8.0]),
            ..LOWER
        },
        Triangle {
            diag: Some(&[2.0]),
            ..LOWER
        },
    ];
    for triangle in bad {
        assert_eq!(refused(triangle, [0, 1, 2], fine), Refusal::BadTriangle);
        let mut values = fine;
        assert_eq!(triangle.solve_dense(&mut values), Err(Refusal::BadTriangle));
        assert_eq!(values, fine);
    }
    let vals = &[3.0, f64::INFINITY];
    let not_finite = Triangle { vals, ..LOWER };
    assert_eq!(refused(not_finite, [0, 1, 2], fine), Refusal::NotFinite);
    let nan = [1.0, f64::NAN, 1.0];
    assert_eq!(refused(LOWER, [0, 1, 2], nan), Refusal::NotFinite);
    assert_eq!(refused(LOWER, [0, 3, 2], fine), Refusal::BadList);
    assert_eq!(refused(LOWER, [1, 1, 2], fine), Refusal::BadList);

    let short = LOWER.solve_sparse(&mut [0, 1], 1, &mut [1.0; 3]);
    assert_eq!(short, Err(Refusal::BadTriangle));
    assert_eq!(LOWER.solve_dense(&mut [1.0; 2]), Err(Refusal::BadTriangle));
}

#[test]
fn ones_on_the_diagonal_and_the_empty_triangle() {
    let ones = Triangle {
        diag: None,
        ..LOWER
    };
    let mut values = [1.0, 5.0, 12.0];
    ones.solve_dense(&mut values).unwrap();
    assert_eq!(values, [1.0, 2.0, 2.0]);

    let empty = Triangle {
        upper: false,
        size: 0,
        entries: 0,
        starts: &[0],
        rows: &[],
        vals: &[],
        diag: None,
    };
    assert_eq!(empty.solve_sparse(&mut [], 0, &mut []), Ok(0));
    assert_eq!(empty.solve_dense(&mut []), Ok(()));
}

/// The product of `LOWER` and `UPPER` is 16, 10, 0 over 24, 31, 12 over 0, 20, 31.
#[test]
fn a_pair_is_solved_one_after_the_other() {
    let mut values = [36.0, 122.0, 133.0, 7.5];
    solve_dense(&LOWER, &UPPER, &mut values).unwrap();
    assert_eq!(values, [1.0, 2.0, 3.0, 7.5]);

    let mut apart = [0.1, -0.3, 7.0];
    let mut together = apart;
    LOWER.solve_dense(&mut apart).unwrap();
    UPPER.solve_dense(&mut apart).unwrap();
    solve_dense(&LOWER, &UPPER, &mut together).unwrap();
    assert_eq!(together.map(f64::to_bits), apart.map(f64::to_bits));
}

/// The lower solve leaves an infinity, which the upper triangle alone would refuse.
#[test]
fn what_overflows_between_goes_on() {
    let lower = Triangle {
        diag: Some(&[1e-300, 1.0, 1.0]),
        ..LOWER
    };
    let mut values = [1e300, 1.0, 1.0];
    solve_dense(&lower, &UPPER, &mut values).unwrap();
    assert!(values.iter().all(|value| !value.is_finite()));

    let mut apart = [1e300, 1.0, 1.0];
    lower.solve_dense(&mut apart).unwrap();
    assert_eq!(UPPER.solve_dense(&mut apart), Err(Refusal::NotFinite));
}

#[test]
fn a_pair_is_refused_by_either_triangle() {
    let refused = |lower: &Triangle, upper: &Triangle, values: [f64; 3]| {
        let mut after = values;
        let refusal = solve_dense(lower, upper, &mut after).unwrap_err();
        assert_eq!(after.map(f64::to_bits), values.map(f64::to_bits));
        refusal
    };
    let fine = [1.0; 3];
    let infinite = [1.0, f64::INFINITY, 1.0];
    let with = |upper: bool| match upper {
        true => UPPER,
        false => LOWER,
    };
    for side in [false, true] {
        let bad = [
            Triangle {
                starts: &[0, 1, 2],
                ..with(side)
            },
            Triangle {
                rows: &[1, 1],
                ..with(side)
            },
            Triangle {
                diag: Some(&[2.0, 0.0, 8.0]),
                ..with(side)
            },
            Triangle {
                size: 2,
                ..with(side)
            },
            with(!side),
        ];
        let pair = |triangle| match side {
            true => (LOWER, triangle),
            false => (triangle, UPPER),
        };
        for triangle in bad {
            let (lower, upper) = pair(triangle);
            // 1 comes before 2.
            for values in [fine, infinite] {
                assert_eq!(refused(&lower, &upper, values), Refusal::BadTriangle);
            }
        }
        let (lower, upper) = pair(Triangle {
            vals: &[3.0, f64::NAN],
            ..with(side)
        });
        assert_eq!(refused(&lower, &upper, fine), Refusal::NotFinite);
    }
    assert_eq!(refused(&LOWER, &UPPER, infinite), Refusal::NotFinite);
    let short = solve_dense(&LOWER, &UPPER, &mut [1.0; 2]);
    assert_eq!(short, Err(Refusal::BadTriangle));
}

#[test]
fn refusals_are_numbers_and_sentences() {
    for (refusal, number) in [
        (Refusal::BadTriangle, 1),
        (Refusal::NotFinite, 2),
        (Refusal::BadList, 3),
    ] {
        assert_eq!(refusal.number(), number);
        assert!(refusal.to_string().starts_with(&format!("{number}: ")));
        let _: &dyn std::error::Error = &refusal;
    }
}
