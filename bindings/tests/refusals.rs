//! Refusals: their numbers, places and words, and that a refused call changes nothing.

use film::{Field, Film, Head, Order, Refusal};

const THICKNESSES: [u8; 12] = [1, 1, 1, 1, 3, 2, 1, 1, 1, 1, 1, 1];

fn film_f() -> Film {
    from_parts(1, 2, 100, &[1, 1], 100).expect("film F is accepted")
}

fn from_parts(
    rows: u32,
    columns: u32,
    ceiling: u32,
    weights: &[u16],
    wedge: i32,
) -> Result<Film, Refusal> {
    let head = Head {
        rows,
        columns,
        ceiling,
    };
    Film::from_parts(head, weights.to_vec(), THICKNESSES.to_vec(), wedge, None)
}

fn file_f() -> Vec<u8> {
    film_f().write().expect("an accepted film is written")
}

fn refused<T>(number: u32, place: usize) -> Result<T, Refusal> {
    Err(Refusal { number, place })
}

#[test]
fn files() {
    assert_eq!(Film::read(&[]), refused(1, 0));
    assert_eq!(Film::read(&file_f()[..40]), refused(1, 40));
    let longer = [&file_f()[..], &[0]].concat();
    assert_eq!(Film::read(&longer), refused(2, 41));
    for (at, byte, number, place) in [
        (0, 7, 2, 0),
        (6, 1, 3, 5),
        (4, 33, 4, 4),
        (11, 0, 5, 8),
        (16, 0, 6, 15),
        (25, 129, 7, 25),
        (37, 0x7f, 8, 37),
        (15, 0xff, 9, 1),
    ] {
        let mut file = file_f();
        file[at] = byte;
        assert_eq!(Film::read(&file), refused(number, place));
    }
}

#[test]
fn parts() {
    assert_eq!(from_parts(0, 2, 100, &[1, 1], 100), refused(4, 3));
    assert_eq!(from_parts(1, 33, 100, &[1, 1], 100), refused(4, 4));
    assert_eq!(
        from_parts(u32::MAX, u32::MAX, 100, &[1, 1], 100),
        refused(4, 3)
    );
    assert_eq!(from_parts(1, 2, 100, &[1], 100), refused(10, 0));
    assert_eq!(from_parts(2, 1, 100, &[1, 1, 1], 100), refused(10, 0));
    assert_eq!(from_parts(1, 2, 0, &[1, 1], 100), refused(5, 8));
    assert_eq!(from_parts(1, 2, 100, &[1, 0], 100), refused(6, 17));
    assert_eq!(from_parts(1, 2, 100, &[1, 1], i32::MIN), refused(8, 37));
    assert_eq!(from_parts(1, 2, 100, &[1, 9], 100), refused(9, 0));
}

#[test]
fn fields() {
    let film = film_f();
    for (start, number, place) in [(vec![0, 101], 12, 1), (vec![0], 10, 0), (vec![0; 3], 10, 0)] {
        let mut field = Field::from(start.clone());
        let run = film.run(&mut field, 9, Order::Forward, true);
        assert_eq!(run, refused(number, place));
        assert_eq!(film.relax(&mut field, 0), refused(number, place));
        assert_eq!(film.slack(&field, 0), refused(number, place));
        assert_eq!(film.propose(&mut field, 1, &[1, 1]), refused(number, place));
        assert_eq!(film.estimate(&field, 1), refused(number, place));
        assert_eq!(field.pressures(), start);
    }
}

#[test]
fn lines_and_cells() {
    let film = film_f();
    let mut field = Field::zero(&film);
    for line in [0, 2, u32::MAX] {
        assert_eq!(film.propose(&mut field, line, &[1, 1]), refused(13, 0));
        assert_eq!(film.estimate(&field, line), refused(13, 0));
    }
    for cell in [2, usize::MAX] {
        assert_eq!(film.relax(&mut field, cell), refused(13, 0));
        assert_eq!(film.slack(&field, cell), refused(13, 0));
    }
    // The length is tested before the line.
    assert_eq!(film.propose(&mut field, 2, &[1]), refused(10, 0));
    assert_eq!(field, Field::zero(&film));
}

#[test]
fn words() {
    for (number, place, words) in [
        (
            1,
            40,
            "Truncated (1): the film file ends within a field, after 40 bytes",
        ),
        (
            4,
            4,
            "BadShape (4): rows or columns are outside 1 to 32, at byte 4 of the film file",
        ),
        (
            15,
            44,
            "BadStep (15): a grid step is outside 1 to 4, at byte 44 of the film file",
        ),
        (
            12,
            1,
            "StartAboveCeiling (12): a start pressure is above the ceiling, at cell 1",
        ),
        (
            13,
            0,
            "OutOfGrid (13): the line or cell is outside the grid",
        ),
        (99, 7, "Refused (99): the call was refused, at 7"),
    ] {
        assert_eq!(Refusal { number, place }.to_string(), words);
    }
    let error: Box<dyn std::error::Error> = Box::new(Refusal {
        number: 11,
        place: 0,
    });
    assert_eq!(
        error.to_string(),
        "BadOrder (11): there is no such ordering"
    );
}
