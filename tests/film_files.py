#!/usr/bin/env python3
"""Writes crates/film_files: the film files in data/, their names in args and what the program must print in stdout.
Usage: python3 tests/film_files.py

Worked out from document 01 and requests W2 and W5 of document 02 alone, in Python's whole numbers: it shares no line with the program. A
film is described by its numbers; its file, and the answer to it, are worked out here. The faulty files carry the number and place that the
documents give for the fault, written beside each one by hand.
"""
import os
import random

CRATE = os.path.join(os.path.dirname(os.path.abspath(__file__)), "..", "crates", "film_files")


def field(tag, body):
    return bytes([tag]) + len(body).to_bytes(2, "big") + body


class Film:
    def __init__(self, rows, columns, ceiling, weights, thicknesses, wedge, steps=None):
        self.rows, self.columns, self.ceiling = rows, columns, ceiling
        self.weights, self.thicknesses, self.wedge = list(weights), list(thicknesses), wedge  # no weights: field 03 is empty
        self.steps = steps  # along and across, or None where the film has no field for them

    def but(self, **changes):
        film = Film(self.rows, self.columns, self.ceiling, self.weights, self.thicknesses, self.wedge, self.steps)
        film.__dict__.update(changes)
        return film

    def weight(self, cell, value):
        return self.but(weights=[value if i == cell else w for i, w in enumerate(self.weights)])

    def thickness(self, i, value):
        return self.but(thicknesses=[value if j == i else h for j, h in enumerate(self.thicknesses)])

    def file(self):
        return (
            field(1, bytes([self.rows, self.columns]))
            + field(2, self.ceiling.to_bytes(4, "big"))
            + field(3, b"".join(w.to_bytes(2, "big") for w in self.weights))
            + field(4, bytes(self.thicknesses))
            + field(5, self.wedge.to_bytes(4, "big", signed=True))
            + (field(10, bytes(self.steps)) if self.steps else b"")
        )

    def link(self, r, c, s, d):
        along, across = self.steps or (1, 1)
        return (along if r == s else across) * (self.h(r, c) + self.h(s, d)) ** 3

    def h(self, r, c):
        return self.thicknesses[r * (self.columns + 2) + c]

    def answer(self):
        h, link = self.h, self.link

        diagonals, rights, ups, sources = [], [], [], []
        for r in range(1, self.rows + 1):
            for c in range(1, self.columns + 1):
                diagonals.append(link(r, c, r - 1, c) + link(r, c, r + 1, c) + link(r, c, r, c - 1) + link(r, c, r, c + 1))
                rights.append(link(r, c, r, c + 1) if c < self.columns else 0)
                ups.append(link(r, c, r + 1, c) if r < self.rows else 0)
                sources.append(self.wedge * (h(r, c + 1) - h(r, c - 1)))
        steps = " ALONG {} ACROSS {}".format(*self.steps) if self.steps else ""
        lines = [f"FILM {self.rows} {self.columns} {self.ceiling} {self.wedge}{steps}"]
        for name, numbers in (("DIAGONALS", diagonals), ("RIGHTS", rights), ("UPS", ups), ("SOURCES", sources)):
            lines.append(" ".join([name, *map(str, numbers)]))
        # The program lends as many bytes as were in the file: too few where found weights go into it.
        return lines + ["WRITES BACK THE SAME" if self.weights else "REFUSED 10 0"]


def around(film, r, c):
    """The links of a cell, each with the weight on its other end: 0 on the ring."""
    for s, d in ((r - 1, c), (r + 1, c), (r, c - 1), (r, c + 1)):
        inside = 1 <= s <= film.rows and 1 <= d <= film.columns
        yield film.link(r, c, s, d), film.weights[(s - 1) * film.columns + d - 1] if inside else 0


def cells(film):
    return [(r, c) for r in range(1, film.rows + 1) for c in range(1, film.columns + 1)]


def made(rows, columns, ceiling, wedge, seed, thicknesses=lambda draw: draw.randint(1, 128), steps=None):
    """A film with drawn thicknesses. Its weights are steps of 64 to the ring, so to speak: each cell's is 64 above the mean of
    its neighbours', links counted."""
    draw = random.Random(seed)
    drawn = [thicknesses(draw) for _ in range((rows + 2) * (columns + 2))]
    film = Film(rows, columns, ceiling, [0.0] * (rows * columns), drawn, wedge, steps)
    for _ in range(1000):
        for i, (r, c) in enumerate(cells(film)):
            links = list(around(film, r, c))
            film.weights[i] = 64 + sum(k * w for k, w in links) / sum(k for k, _ in links)
    return film.but(weights=[round(w) for w in film.weights])


F = Film(1, 2, 100, [1, 1], [1, 1, 1, 1, 3, 2, 1, 1, 1, 1, 1, 1], 100)
THREE = made(3, 3, 5000, -12345, 3)
STEPS = F.but(steps=(2, 3))
THREE_STEPS = made(3, 3, 5000, -12345, 3, steps=(3, 4))
BARE = F.but(weights=[])
# A thick cell inside thin ones: hardly anything flows out, and weights would have to pass 65,535. With 100 it has some.
THICK = Film(3, 3, 16_777_216, [], [101 if i == 12 else 1 for i in range(25)], 1000)
FILE = F.file()
assert FILE.hex() == "0100020102" "02000400000064" "03000400010001" "04000c010101010302010101010101" "05000400000064"


def put(file, at, *values):
    return file[:at] + bytes(values) + file[at + len(values):]


# film F's fields are at 0, 5, 12, 19 and 34; its weights from 15, its thicknesses from 22, its wedge number at 37; with steps, their field
# is at 41, and they are at 44 and 45
VALID = [
    ("f", F),
    ("wedge_zero", F.but(wedge=0)),
    ("wedge_down", F.but(wedge=-100)),
    ("wedge_most", F.but(wedge=1_000_000_000)),
    ("wedge_least", F.but(wedge=-1_000_000_000)),
    ("ceiling_least", F.but(ceiling=1)),
    ("ceiling_most", F.but(ceiling=16_777_216)),
    ("one_cell", made(1, 1, 7, 3, 1).weight(0, 65_535)),
    ("row", made(1, 32, 16_777_216, 999, 2)),
    ("column", made(32, 1, 65_536, -1, 4)),
    ("three", THREE),
    ("thick", made(4, 5, 1000, 1_000_000_000, 5, thicknesses=lambda draw: 128)),
    ("thin", made(2, 2, 255, 256, 6, thicknesses=lambda draw: 1)),
    ("even", made(2, 3, 256, 255, 7, thicknesses=lambda draw: draw.randint(60, 64))),
    ("largest", made(32, 32, 100_000, -65_537, 8)),
    ("steps", STEPS),
    ("steps_equal", F.but(steps=(1, 1))),
    ("steps_least_and_most", F.but(steps=(1, 4))),
    ("steps_most_and_least", F.but(steps=(4, 1))),
    ("steps_of_three", THREE_STEPS),
    ("steps_of_one_cell", made(1, 1, 7, 3, 1, steps=(3, 2)).weight(0, 65_535)),
    ("steps_of_a_column", made(32, 1, 65_536, -1, 4, steps=(1, 3))),
    ("steps_thick", made(4, 5, 1000, 1_000_000_000, 5, thicknesses=lambda draw: 128, steps=(4, 4))),
    ("steps_largest", made(32, 32, 100_000, -65_537, 8, steps=(4, 1))),
    ("bare", BARE),
    ("bare_of_three", THREE_STEPS.but(weights=[])),
]

REFUSED = [
    ("empty", b"", 1, 0),  # document 01
    ("header_cut", FILE[:2], 1, 2),
    ("shape_cut", FILE[:4], 1, 4),
    ("second_header_cut", FILE[:6], 1, 6),
    ("weights_cut", FILE[:17], 1, 17),
    ("last_header_missing", FILE[:34], 1, 34),
    ("last_byte_missing", FILE[:-1], 1, 40),  # document 01
    ("byte_more", FILE + b"\0", 2, 41),  # document 01
    ("file_twice", FILE + FILE, 2, 41),
    ("first_tag", put(FILE, 0, 2), 2, 0),
    ("second_tag", put(FILE, 5, 3), 2, 5),
    ("unknown_tag", put(FILE, 12, 255), 2, 12),
    ("tag_zero", put(FILE, 34, 0), 2, 34),
    ("shape_length", put(FILE, 2, 3), 3, 0),
    ("ceiling_length", put(FILE, 7, 5), 3, 5),
    ("length_little_endian", put(FILE, 6, 4, 0), 3, 5),
    ("weights_length", put(FILE, 14, 6), 3, 12),
    ("thicknesses_length", put(FILE, 21, 13), 3, 19),
    ("wedge_length", put(FILE, 36, 2), 3, 34),
    ("rows_zero", put(FILE, 3, 0), 4, 3),
    ("rows_33", put(FILE, 3, 33), 4, 3),
    ("columns_zero", put(FILE, 4, 0), 4, 4),
    ("columns_33", put(FILE, 4, 33), 4, 4),  # document 01
    ("ceiling_zero", F.but(ceiling=0).file(), 5, 8),
    ("ceiling_above", F.but(ceiling=16_777_217).file(), 5, 8),
    ("ceiling_all_ones", F.but(ceiling=2 ** 32 - 1).file(), 5, 8),
    ("first_weight", F.weight(0, 0).file(), 6, 15),
    ("second_weight", F.weight(1, 0).file(), 6, 17),
    ("last_weight_of_three", THREE.weight(8, 0).file(), 6, 15 + 2 * 8),
    ("thickness_zero", F.thickness(5, 0).file(), 7, 22 + 5),
    ("thickness_129", F.thickness(6, 129).file(), 7, 22 + 6),
    ("first_corner", F.thickness(0, 0).file(), 7, 22),
    ("last_corner", F.thickness(11, 255).file(), 7, 22 + 11),
    ("last_corner_of_three", THREE.thickness(24, 0).file(), 7, 15 + 2 * 9 + 3 + 24),
    ("wedge_above", F.but(wedge=1_000_000_001).file(), 8, 37),
    ("wedge_below", F.but(wedge=-1_000_000_001).file(), 8, 37),
    ("wedge_of_three", THREE.but(wedge=2 ** 31 - 1).file(), 8, 15 + 2 * 9 + 3 + 25 + 3),
    # the weighted row sum of cell 0 is 206 w0 - 27 w1, that of cell 1 is 51 w1 - 27 w0
    ("unheld_first", F.weight(1, 8).file(), 9, 0),
    ("unheld_second", F.weight(0, 2).file(), 9, 1),
    # two faults at once: the one that is tested first
    ("rows_and_columns", put(FILE, 3, 0, 33), 4, 3),
    ("shape_before_its_absence_later", put(FILE, 3, 33)[:20], 4, 3),
    ("ceiling_before_weight", F.but(ceiling=0).weight(0, 0).file(), 5, 8),
    ("weight_before_cut", F.weight(0, 0).file()[:-1], 6, 15),
    ("two_weights", F.weight(0, 0).weight(1, 0).file(), 6, 15),
    ("weight_before_thickness", F.weight(1, 0).thickness(0, 0).file(), 6, 17),
    ("two_thicknesses", F.thickness(3, 0).thickness(2, 200).file(), 7, 24),
    ("thickness_before_tag", put(F.thickness(11, 0).file(), 34, 9), 7, 33),
    ("tag_before_length", put(FILE, 12, 9, 9, 9), 2, 12),
    ("length_before_cut", put(FILE, 36, 9)[:-1], 3, 34),
    ("wedge_before_stray", F.but(wedge=1_000_000_001).file() + b"\0", 8, 37),
    ("wedge_before_unheld", F.weight(1, 8).but(wedge=-1_000_000_001).file(), 8, 37),
    ("stray_before_unheld", F.weight(1, 8).file() + b"\5", 2, 41),
    # behind the wedge number the tag is looked at before the header
    ("steps_tag_alone", FILE + b"\x0a", 1, 42),
    ("steps_header_cut", FILE + b"\x0a\0", 1, 43),
    ("steps_missing", STEPS.file()[:44], 1, 44),
    ("steps_cut", STEPS.file()[:45], 1, 45),
    ("next_tag_alone", FILE + b"\x0b", 2, 41),
    ("next_tag_with_header", FILE + b"\x0b\0\2\1\1", 2, 41),
    ("wedge_twice", FILE + FILE[34:], 2, 41),
    ("steps_twice", STEPS.file() + STEPS.file()[41:], 2, 46),
    ("steps_and_a_byte", STEPS.file() + b"\0", 2, 46),
    ("steps_and_their_tag", STEPS.file() + b"\x0a", 2, 46),
    ("steps_before_wedge", FILE[:34] + STEPS.file()[41:] + FILE[34:], 2, 34),
    ("steps_first", STEPS.file()[41:] + FILE, 2, 0),
    ("steps_length", put(STEPS.file(), 43, 3), 3, 41),
    ("steps_length_zero", FILE + b"\x0a\0\0", 3, 41),
    ("steps_length_one", FILE + b"\x0a\0\1\1", 3, 41),
    ("steps_length_little_endian", put(STEPS.file(), 42, 2, 0), 3, 41),
    ("along_zero", F.but(steps=(0, 1)).file(), 15, 44),
    ("along_five", F.but(steps=(5, 1)).file(), 15, 44),
    ("along_all_ones", F.but(steps=(255, 1)).file(), 15, 44),
    ("across_zero", F.but(steps=(1, 0)).file(), 15, 45),
    ("across_five", F.but(steps=(4, 5)).file(), 15, 45),
    ("across_of_three", THREE_STEPS.but(steps=(4, 129)).file(), 15, 28 + 2 * 9 + 25 + 1),
    # with steps 4 and 1 the weighted row sum of cell 0 is 662 w0 - 108 w1, that of cell 1 is 156 w1 - 108 w0
    ("steps_unheld_first", F.but(steps=(4, 1)).weight(1, 7).file(), 9, 0),
    ("steps_unheld_second", F.but(steps=(4, 1)).weight(0, 2).file(), 9, 1),
    # again two faults at once
    ("along_and_across", F.but(steps=(9, 0)).file(), 15, 44),
    ("steps_length_before_cut", FILE + b"\x0a\0\3\1", 3, 41),
    ("steps_length_before_along", FILE + b"\x0a\0\3\0\0\0", 3, 41),
    ("steps_cut_before_along", FILE + b"\x0a\0\2\0", 1, 45),
    ("wedge_before_along", F.but(wedge=1_000_000_001, steps=(0, 0)).file(), 8, 37),
    ("wedge_before_steps_tag", F.but(wedge=1_000_000_001).file() + b"\x0a", 8, 37),
    ("across_before_stray", F.but(steps=(1, 5)).file() + b"\0", 15, 45),
    ("along_before_unheld", F.weight(1, 8).but(steps=(5, 1)).file(), 15, 44),
    ("stray_behind_steps_before_unheld", F.weight(1, 8).but(steps=(4, 1)).file() + b"\5", 2, 46),
    # without weights the fields are at 0, 5, 12, 15 and 30, and that of the steps at 37
    ("bare_cut", BARE.file()[:-1], 1, 36),
    ("bare_tag", put(BARE.file(), 15, 5), 2, 15),
    ("bare_and_a_byte", BARE.file() + b"\0", 2, 37),
    ("bare_thickness", BARE.thickness(5, 0).file(), 7, 18 + 5),
    ("bare_wedge", BARE.but(wedge=1_000_000_001).file(), 8, 33),
    ("bare_across", BARE.but(steps=(1, 5)).file(), 15, 41),
    ("weights_length_one", put(BARE.file(), 14, 1), 3, 12),
    ("weights_behind_length_zero", put(FILE, 14, 0), 2, 15),
    ("no_weights", THICK.file(), 16, 4),
    ("stray_before_no_weights", THICK.file() + b"\0", 2, 50),
]


def found(film):
    """The film with its weights: those that it has, or the least, each raised from 0 to what its cell needs until none rises."""
    if film.weights:
        return film
    film, before = film.but(weights=[0] * (film.rows * film.columns)), None
    while film.weights != before:
        before = list(film.weights)
        for i, (r, c) in enumerate(cells(film)):
            links = list(around(film, r, c))
            film.weights[i] = sum(k * w for k, w in links) // sum(k for k, _ in links) + 1
    return film


def holds(film):
    """No weighted row sum is below 1."""
    return all(
        sum(k * (film.weights[i] - w) for k, w in around(film, r, c)) >= 1 for i, (r, c) in enumerate(cells(film))
    )


def main():
    os.makedirs(os.path.join(CRATE, "data"), exist_ok=True)
    names, lines = [], []
    for name, film in VALID:
        if not holds(found(film)):
            raise SystemExit(f"{name} is no valid film")
    for name, file, answer in [(n, f.file(), f.answer()) for n, f in VALID] + [(n, f, [f"REFUSED {k} {p}"]) for n, f, k, p in REFUSED]:
        names.append(name)
        lines += [name, *answer]
        with open(os.path.join(CRATE, "data", name), "wb") as out:
            out.write(file)
    assert len(set(names)) == len(names)
    with open(os.path.join(CRATE, "args"), "w") as out:
        out.write("".join(name + "\n" for name in names))
    with open(os.path.join(CRATE, "stdout"), "w") as out:
        out.write("".join(line + "\n" for line in lines))


main()
