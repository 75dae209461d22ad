//! Refusals of the calls: number, place, order of the tests, and that nothing lent has changed.

use film_oracle::calls::{self, Problem};
use film_oracle::coefficients::{form, form_call, Coefficients};
use film_oracle::film::{read_into, write, write_into, Numbers};
use film_oracle::samples::{film_f, stopped};
use film_oracle::{refuse, Whole};

fn coefficients() -> Coefficients {
    form(&film_f())
}

fn problem<'a>(formed: &'a Coefficients, weights: &'a [u16]) -> Problem<'a> {
    Problem {
        rows: 1,
        columns: 2,
        ceiling: 100,
        diagonals: &formed.diagonals,
        rights: &formed.rights,
        ups: &formed.ups,
        sources: &formed.sources,
        weights,
    }
}

#[test]
fn reader_fills_only_what_it_uses() {
    let bytes = write(&film_f());
    let mut weights = [9_u16; 1_024];
    let mut thickness = [9_u8; 1_156];
    let read = read_into(&bytes, &mut weights, &mut thickness);
    assert_eq!(read, Ok((1, 2, 100, 100, None)));
    assert_eq!(weights[..3], [1, 1, 9]);
    assert_eq!(thickness[..13], [1, 1, 1, 1, 3, 2, 1, 1, 1, 1, 1, 1, 9]);
    assert!(weights[2..].iter().all(|&w| w == 9));
    assert!(thickness[12..].iter().all(|&h| h == 9));

    let largest = write(&stopped());
    assert_eq!(largest.len(), 3_229);
    assert!(read_into(&largest, &mut weights, &mut thickness).is_ok());
}

#[test]
fn reader_refuses_without_a_change() {
    let mut weights = [9_u16; 1_024];
    let mut thickness = [9_u8; 1_156];
    let mut bytes = write(&film_f());
    bytes[37] = 0x7f;
    let read = read_into(&bytes, &mut weights, &mut thickness);
    assert_eq!(read, refuse(8, 37));
    assert!(weights.iter().all(|&w| w == 9) && thickness.iter().all(|&h| h == 9));
    // Wrong buffers come before everything in the file.
    let read = read_into(&bytes, &mut weights[1..], &mut thickness);
    assert_eq!(read, refuse(10, 0));
    let read = read_into(&[], &mut weights, &mut thickness[..1_155]);
    assert_eq!(read, refuse(10, 0));
}

#[test]
fn writer_reads_back_and_refuses_in_order() {
    let film = film_f();
    let good = Numbers::from(&film);
    let mut out = [0_u8; 41];
    assert_eq!(write_into(good, &mut out), Ok(()));
    assert_eq!(out.to_vec(), write(&film));

    let mut given = good;
    let mut thickness = film.thickness.clone();
    thickness[11] = 0;
    given.wedge = 1_000_000_001;
    given.thickness = &thickness;
    given.weights = &[0, 0];
    given.ceiling = 0;
    given.columns = 33;
    let mut out = [5_u8; 40];
    assert_eq!(write_into(given, &mut out), refuse(4, 4));
    given.rows = 0;
    assert_eq!(write_into(given, &mut out), refuse(4, 3));
    (given.rows, given.columns) = (1, 2);
    assert_eq!(write_into(given, &mut out), refuse(10, 0));
    let mut out = [5_u8; 41];
    assert_eq!(write_into(given, &mut out), refuse(5, 8));
    given.ceiling = 16_777_217;
    assert_eq!(write_into(given, &mut out), refuse(5, 8));
    given.ceiling = 16_777_216;
    assert_eq!(write_into(given, &mut out), refuse(6, 15));
    given.weights = &[65_535, 1];
    assert_eq!(write_into(given, &mut out), refuse(7, 33));
    given.thickness = &film.thickness;
    assert_eq!(write_into(given, &mut out), refuse(8, 37));
    given.wedge = -1_000_000_000;
    assert_eq!(write_into(given, &mut out), refuse(9, 1));
    assert_eq!(out, [5; 41]);
}

#[test]
fn forming_call_tests_like_the_writer() {
    let film = film_f();
    let mut given = Numbers::from(&film);
    assert_eq!(form_call(given, &[2, 2, 2, 2]), Ok(form(&film)));
    assert_eq!(form_call(given, &[2, 2, 3, 2]), refuse(10, 0));
    given.weights = &[1, 1, 1];
    assert_eq!(form_call(given, &[2; 4]), refuse(10, 0));
    given.weights = &[1, 0];
    assert_eq!(form_call(given, &[2; 4]), refuse(6, 17));
    given.weights = &[1, 65_535];
    assert_eq!(form_call(given, &[2; 4]), refuse(9, 0));
}

#[test]
fn run_refuses_in_order() {
    // All faults at once, then one after another mended.
    let mut formed = coefficients();
    formed.sources[1] = 1_125_899_906_842_625;
    formed.rights[1] = 1;
    let mut field = vec![0_u32, 101, 0];
    let mut given = problem(&formed, &[0, 0]);
    given.rows = 33;
    given.ceiling = 0;
    assert_eq!(calls::run(given, &mut field, 0, 3, true), refuse(4, 0));
    given.rows = 1;
    assert_eq!(calls::run(given, &mut field, 0, 3, true), refuse(5, 0));
    given.ceiling = 100;
    assert_eq!(calls::run(given, &mut field, 0, 3, true), refuse(10, 0));
    field.pop();
    assert_eq!(calls::run(given, &mut field, 0, 3, true), refuse(14, 1));
    let mended = coefficients();
    let mut given = problem(&mended, &[1, 0]);
    assert_eq!(calls::run(given, &mut field, 0, 3, true), refuse(6, 1));
    given.weights = &[65_535, 1];
    assert_eq!(calls::run(given, &mut field, 0, 3, true), refuse(9, 1));
    given.weights = &[1, 1];
    assert_eq!(calls::run(given, &mut field, 0, 3, true), refuse(11, 0));
    assert_eq!(calls::run(given, &mut field, 0, -1, true), refuse(11, 0));
    assert_eq!(calls::run(given, &mut field, 0, 2, true), refuse(12, 1));
    assert_eq!(field, [0, 101]);
}

#[test]
fn coefficient_limits() {
    let limits: [(usize, usize, Whole, bool); 15] = [
        (0, 0, 0, false),
        (0, 0, 134_217_729, true),
        (0, 0, 268_435_456, true),
        (0, 0, 268_435_457, false),
        (1, 0, -1, false),
        (1, 0, 0, true),
        (1, 0, 67_108_865, false),
        (1, 1, 1, false),
        (2, 0, 1, false),
        (2, 1, 1, false),
        (2, 1, -1, false),
        (3, 0, -1_125_899_906_842_624, true),
        (3, 0, -1_125_899_906_842_625, false),
        (3, 1, 1_125_899_906_842_624, true),
        (3, 1, 1_125_899_906_842_625, false),
    ];
    for (which, cell, number, fits) in limits {
        let mut formed = coefficients();
        let slices = [
            &mut formed.diagonals,
            &mut formed.rights,
            &mut formed.ups,
            &mut formed.sources,
        ];
        slices.into_iter().nth(which).unwrap()[cell] = number;
        let result = calls::margin(problem(&formed, &[1, 1]));
        if fits {
            assert!(result.is_ok(), "{which} {cell} {number}");
        } else {
            assert_eq!(result, refuse(14, cell), "{which} {cell} {number}");
        }
    }
}

/// The largest link passes wherever the diagonals hold it, and one more passes nowhere.
#[test]
fn link_limits() {
    for (rows, columns) in [(1, 2), (2, 1)] {
        for (link, fits) in [(16_777_217, true), (67_108_864, true), (67_108_865, false)] {
            let mut links = [vec![link, 0], vec![0, 0]];
            if columns == 1 {
                links.reverse();
            }
            let [rights, ups] = links;
            let given = Problem {
                rows,
                columns,
                ceiling: 100,
                diagonals: &[268_435_456; 2],
                rights: &rights,
                ups: &ups,
                sources: &[-1; 2],
                weights: &[1; 2],
            };
            let mut field = [0_u32; 2];
            let told = calls::run(given, &mut field, 4, 0, false).map(|_| ());
            let wanted = if fits { Ok(()) } else { refuse(14, 0) };
            assert_eq!(told, wanted, "{rows} {columns} {link}");
            assert_eq!(calls::margin(given).map(|_| ()), wanted);
        }
    }
}

#[test]
fn lines_and_cells() {
    let formed = coefficients();
    let given = problem(&formed, &[1, 1]);
    let mut field = [0_u32, 0];
    let mut out = [7_u32, 7];
    for line in [0, 2, 1 << 32, -1] {
        assert_eq!(
            calls::propose(given, &mut field, line, &[1, 1]),
            refuse(13, 0)
        );
        assert_eq!(
            calls::estimate(given, &field, line, &mut out),
            refuse(13, 0)
        );
        // 10 stands before 13.
        assert_eq!(
            calls::propose(given, &mut field, line, &[1; 3]),
            refuse(10, 0)
        );
    }
    assert_eq!(out, [7, 7]);
    for cell in [-1, 2, 1 << 32] {
        assert_eq!(calls::slack(given, &field, cell), refuse(13, 0));
        assert_eq!(calls::required(given, &field, cell), refuse(13, 0));
        assert_eq!(calls::relax(given, &mut field, cell), refuse(13, 0));
    }
    assert_eq!(calls::slack(given, &field, 1), Ok(-100));
    assert_eq!(calls::required(given, &field, 1), Ok(2));
    assert_eq!(calls::estimate(given, &field, 1, &mut out), Ok(()));
}
