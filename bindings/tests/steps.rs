//! Unequal grid steps: field 0A, the links that it multiplies, and refusal 15.

use film::{
    raw, report, AnyFilm, CoefficientFilm, Counts, Field, Film, Head, Order, Outcome, Refusal,
    Steps,
};

/// Film F's file, and behind it field 0A with 2 and 3.
const FILE: [u8; 46] = [
    0x01, 0, 2, 1, 2, // rows and columns
    0x02, 0, 4, 0, 0, 0, 100, // ceiling
    0x03, 0, 4, 0, 1, 0, 1, // weights
    0x04, 0, 12, 1, 1, 1, 1, 3, 2, 1, 1, 1, 1, 1, 1, // thicknesses, by rows
    0x05, 0, 4, 0, 0, 0, 100, // wedge
    0x0a, 0, 2, 2, 3, // along and across
];
const STEPS: Steps = Steps {
    along: 2,
    across: 3,
};

/// Where film F ends without the field, and where its two numbers stand with it.
const END: usize = 41;
const ALONG: usize = 44;
const ACROSS: usize = 45;

const HEAD: Head = Head {
    rows: 1,
    columns: 2,
    ceiling: 100,
};
const THICKNESSES: [u8; 12] = [1, 1, 1, 1, 3, 2, 1, 1, 1, 1, 1, 1];

/// Film F with steps.
fn film_f(steps: Option<Steps>) -> Result<Film, Refusal> {
    Film::from_parts(HEAD, vec![1, 1], THICKNESSES.to_vec(), 100, steps)
}

fn steps(along: u32, across: u32) -> Option<Steps> {
    Some(Steps { along, across })
}

/// Film F's file without the field, and these bytes behind it.
fn followed(bytes: &[u8]) -> Vec<u8> {
    [&FILE[..END], bytes].concat()
}

fn refused<T>(number: u32, place: usize) -> Result<T, Refusal> {
    Err(Refusal { number, place })
}

/// Within its row cell 0 has links 125 and 27, between rows 27 and 27; cell 1 has 27 and 8, 8 and 8.
#[test]
fn coefficients() -> Result<(), Refusal> {
    let film = film_f(Some(STEPS))?;
    assert_eq!(film.steps(), Some(STEPS));
    assert_eq!(film.diagonals(), [2 * 152 + 3 * 54, 2 * 35 + 3 * 16]);
    assert_eq!(film.rights(), [2 * 27, 0]);
    assert_eq!(film.ups(), [0, 0]);
    assert_eq!(film.sources(), [-200, -100]);
    assert_eq!(film.margin(), Ok(1));
    Ok(())
}

/// The same film turned: links between rows are multiplied by the second.
#[test]
fn links_between_rows() -> Result<(), Refusal> {
    let head = Head {
        rows: 2,
        columns: 1,
        ..HEAD
    };
    let thicknesses = vec![1, 3, 1, 1, 2, 1, 1, 1, 1, 1, 1, 1];
    let film = Film::from_parts(head, vec![1, 1], thicknesses, 100, Some(STEPS))?;
    assert_eq!(film.diagonals(), [3 * 152 + 2 * 54, 3 * 35 + 2 * 16]);
    assert_eq!(film.rights(), [0, 0]);
    assert_eq!(film.ups(), [3 * 27, 0]);
    assert_eq!(film.sources(), [0, 0]);
    Ok(())
}

#[test]
fn file_both_ways() -> Result<(), Refusal> {
    let film = film_f(Some(STEPS))?;
    assert_eq!(film.write()?, FILE);
    assert_eq!(Film::read(&FILE), Ok(film.clone()));
    assert_eq!(AnyFilm::read(&FILE), Ok(AnyFilm::Gauged(film)));
    Ok(())
}

/// A film without the field has 1 and 1, and is not the same file as one with 1 and 1.
#[test]
fn equal_steps() -> Result<(), Refusal> {
    let (without, with) = (film_f(None)?, film_f(steps(1, 1))?);
    assert_eq!(without.as_coefficients(), with.as_coefficients());
    assert_eq!(without.convert()?, with.convert()?);
    assert_ne!(without, with);
    assert_eq!(without.write()?, FILE[..END]);
    assert_eq!(with.write()?, followed(&[0x0a, 0, 2, 1, 1]));
    assert_eq!(report(&without.write()?)?, report(&with.write()?)?);
    assert_eq!(Film::read(&without.write()?), Ok(without));
    assert_eq!(Film::read(&with.write()?), Ok(with));
    Ok(())
}

#[test]
fn converted() -> Result<(), Refusal> {
    let film = film_f(Some(STEPS))?;
    let file = film.convert()?;
    let read = CoefficientFilm::read(&file)?;
    assert_eq!(&read, film.as_coefficients());
    assert_eq!(read.diagonals(), [466, 118]);
    assert_eq!(report(&file)?, report(&FILE)?);
    Ok(())
}

#[test]
fn least_field() -> Result<(), Refusal> {
    let film = film_f(Some(STEPS))?;
    let mut field = Field::zero(&film);
    let done = Outcome::Done(Counts {
        visits: 4,
        raises: 2,
        accepted: 0,
    });
    assert_eq!(film.run(&mut field, 9, Order::Forward, false), Ok(done));
    assert_eq!(field.pressures(), [1, 2]);
    let text = "FILM 1 2 CEILING 100\nDONE 4 2\n1 1 1 158\n1 2 2 82\nPEAK 1 2 2\n";
    assert_eq!(report(&FILE)?, text.as_bytes());
    Ok(())
}

/// The thickest film with the largest steps forms the largest links and diagonals.
#[test]
fn largest() -> Result<(), Refusal> {
    let film = Film::from_parts(HEAD, vec![1, 1], vec![128; 12], 0, steps(4, 4))?;
    assert_eq!(film.diagonals(), [268_435_456; 2]);
    assert_eq!(film.rights(), [67_108_864, 0]);
    assert_eq!(
        CoefficientFilm::read(&film.convert()?)?,
        *film.as_coefficients()
    );
    Ok(())
}

/// Behind field 05 the tag is looked at before the header.
#[test]
fn what_follows_the_wedge() {
    for tag in 0..=255 {
        let (alone, header) = (followed(&[tag]), followed(&[tag, 0, 2]));
        let (number, places) = match tag {
            0x0a => (1, [42, 44]),
            _ => (2, [END, END]),
        };
        assert_eq!(Film::read(&alone), refused(number, places[0]));
        assert_eq!(Film::read(&header), refused(number, places[1]));
    }
    for end in END + 1..FILE.len() {
        assert_eq!(Film::read(&FILE[..end]), refused(1, end));
    }
    for length in [0, 1, 3, 512] {
        let [high, low] = u16::to_be_bytes(length);
        assert_eq!(Film::read(&followed(&[0x0a, high, low])), refused(3, END));
    }
}

#[test]
fn what_follows_the_steps() -> Result<(), Refusal> {
    for tag in 0..=255 {
        let file = [&FILE[..], &[tag]].concat();
        assert_eq!(Film::read(&file), refused(2, 46));
    }
    let twice = [&FILE[..], &FILE[END..]].concat();
    assert_eq!(Film::read(&twice), refused(2, 46));
    let before_the_wedge = [&FILE[..34], &FILE[END..], &FILE[34..END]].concat();
    assert_eq!(Film::read(&before_the_wedge), refused(2, 34));
    let coefficients = [&film_f(None)?.convert()?[..], &FILE[END..]].concat();
    assert_eq!(CoefficientFilm::read(&coefficients), refused(2, 71));
    Ok(())
}

#[test]
fn bad_steps() {
    for step in [0, 5, 128, 255] {
        for (file, place) in [
            (followed(&[0x0a, 0, 2, step, 3]), ALONG),
            (followed(&[0x0a, 0, 2, 2, step]), ACROSS),
            (followed(&[0x0a, 0, 2, step, step]), ALONG),
            // before what follows
            (followed(&[0x0a, 0, 2, 2, step, 0x0a]), ACROSS),
        ] {
            assert_eq!(Film::read(&file), refused(15, place));
            let line = format!("REFUSED 15 {place}\n");
            assert_eq!(report(&file), Ok(line.into_bytes()));
        }
    }
    // Numbers of a caller's are not cut to a byte.
    for step in [0, 5, 256, 257, 65_537, u32::MAX] {
        assert_eq!(film_f(steps(step, 1)), refused(15, ALONG));
        assert_eq!(film_f(steps(1, step)), refused(15, ACROSS));
        assert_eq!(film_f(steps(step, step)), refused(15, ALONG));
    }
}

/// 15 stands behind 8 and before 9.
#[test]
fn order_of_tests() {
    let made = |weights: [u16; 2], wedge, steps| {
        Film::from_parts(HEAD, weights.to_vec(), THICKNESSES.to_vec(), wedge, steps)
    };
    assert_eq!(made([1, 1], i32::MAX, steps(0, 0)), refused(8, 37));
    assert_eq!(made([1, 9], 100, steps(4, 0)), refused(15, ACROSS));
    assert_eq!(made([1, 9], 100, steps(4, 1)), refused(9, 0));
    let mut file = followed(&[0x0a, 0, 2, 5, 1]);
    file[18] = 9;
    assert_eq!(Film::read(&file), refused(15, ALONG));
    file[37] = 0x7f;
    assert_eq!(Film::read(&file), refused(8, 37));
}

/// What is lent for steps that a film doesn't have.
const NOISE: raw::Steps = raw::Steps {
    given: 0,
    along: 0,
    across: 0xdead_beef,
};

/// Number, place (9 before) and file of film F with these steps, written into so many bytes.
fn written(steps: raw::Steps, length: usize) -> (u32, usize, Vec<u8>) {
    let gauge = raw::Gauge {
        head: &HEAD,
        weights: &[1, 1],
        thicknesses: &THICKNESSES,
        wedge: 100,
        steps: &steps,
    };
    let (mut out, mut place) = (vec![7; length], 9);
    let number = raw::write(gauge, &mut out, &mut place);
    (number, place, out)
}

/// Number, place (9 before) and steps as reading a file leaves them.
fn read(file: &[u8], mut steps: raw::Steps) -> (u32, usize, raw::Steps) {
    let (mut weights, mut thicknesses) = (vec![0; 1_024], vec![0; 1_156]);
    let (mut head, mut wedge, mut place) = (Head::default(), 0, 9);
    let number = raw::read(
        file,
        &mut weights,
        &mut thicknesses,
        &mut head,
        &mut wedge,
        &mut steps,
        &mut place,
    );
    (number, place, steps)
}

#[test]
fn lent_steps() {
    assert_eq!(written(NOISE, 41), (0, 9, FILE[..END].to_vec()));
    assert_eq!(written(NOISE, 46), (10, 0, vec![7; 46]));
    for given in [1, 2, 256, u32::MAX] {
        let steps = raw::Steps {
            given,
            along: 2,
            across: 3,
        };
        assert_eq!(written(steps, 46), (0, 9, FILE.to_vec()));
        assert_eq!(written(steps, 41), (10, 0, vec![7; 41]));
    }
}

#[test]
fn steps_of_a_file() {
    let lent = raw::Steps { given: 8, ..NOISE };
    assert_eq!(read(&FILE[..END], lent), (0, 9, NOISE));
    let found = raw::Steps::from(Some(STEPS));
    assert_eq!(read(&FILE, lent), (0, 9, found));
    assert_eq!(read(&FILE[..45], lent), (1, 45, lent));
    let file = followed(&[0x0a, 0, 2, 2, 5]);
    assert_eq!(read(&file, lent), (15, ACROSS, lent));
}
