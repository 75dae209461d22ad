/* Film's public calls for C: the header of the archive that `bindings/archive` writes (target/staticlib/libfilm.a).
 *
 * A film has R rows and C columns of cells, N = R * C, and T = (R + 2) * (C + 2) thicknesses, the boundary ring included. Cells are
 * counted from 0, row by row; lines from 1 to R.
 *
 * A film file is of one of two kinds. Both begin with fields 01 (shape), 02 (ceiling) and 03 (weights, 2 bytes a cell, or none).
 *
 *    a gauged film         goes on with 04 (thicknesses, a byte each) and 05 (wedge, 4 bytes), and may end with 0A (steps, a byte each):
 *                          25 + 2 * N + T bytes, and 5 more with 0A, at most 3,234
 *    a coefficient film    goes on with 06 (diagonals), 07 (right links), 08 (up links), 4 bytes a cell each, and 09 (sources, 8 bytes a
 *                          cell): 27 + 22 * N bytes, at most 22,555
 *
 * A field is its tag, a byte; the length of its body, 2 bytes; and the body. Numbers are big-endian, wedge and sources two's complement.
 * Each kind has a reader and a writer; film_convert makes a coefficient film's file of a gauged film; film_report takes either kind.
 *
 * Field 03 may be empty, its length 0. Then the program finds the weights when it reads the file: the least whole numbers whose weighted row
 * sums are all at least 1, if none of them is above 65,535. That takes up to 4,000,000 relaxations. What is read is a film with weights, and
 * nothing keeps that the field was empty. Such a file is 2 * N bytes shorter than said above, and all that stands behind field 03 has an
 * offset that is less by 2 * N, in refusals too. The writers put weights in place: a file of L bytes that was read without weights is
 * written back with L + 2 * N, the bytes before field 03 and behind it the same.
 *
 * Every call returns 0 if it answered, and then writes what its comment says and leaves *place as it was. Otherwise it returns the number of
 * a refusal, 1 to 17, writes the refusal's place to *place, and changes nothing else: no result, no field, no slice.
 *
 *    1 truncated           a file's header or body runs past its end; place: the file's length
 *    2 unexpected          a tag is not the next one, or bytes follow the last field; place: its offset
 *    3 wrong length        a body's length is wrong for its tag, in field 03 neither 2 * N nor 0; place: the field's offset
 *    4 bad shape           rows or columns are not 1 to 32; place: its offset, 3 or 4 (in numeric calls 0)
 *    5 bad ceiling         the ceiling is not 1 to 16,777,216; place: its offset, 8 (in numeric calls 0)
 *    6 zero weight         a weight is 0; place: its offset, 15 + 2 * cell (in numeric calls the cell)
 *    7 bad thickness       a thickness is not 1 to 128; place: its offset
 *    8 bad wedge           the wedge is beyond 1,000,000,000 either way; place: its offset
 *    9 not dominant        a weighted row sum is below 1; place: the cell
 *   10 wrong buffer        a slice has the wrong length; place: 0
 *   11 bad order           an ordering number is not 0, 1 or 2; place: 0
 *   12 start above ceiling a pressure of the field is above the ceiling; place: the cell
 *   13 out of grid         a line or cell is outside the grid; place: 0
 *   14 bad coefficient     a coefficient is outside its limits; place: the cell
 *   15 bad step            a grid step is not 1 to 4; place: its offset, 28 + 2 * N + T for along, one more for across
 *   16 no weights          field 03 is empty, and no weights from 1 to 65,535 hold the film; place: the cell that would need more
 *   17 weights not found   field 03 is empty, and 4,000,000 relaxations neither found weights nor met 16; place: 0
 *
 * 16 and 17 are those of film_read and film_read_coefficients alone, and stand in reports. To calls that take weights, none at all (0
 * elements) are a slice of the wrong length, 10.
 *
 * Offsets are those in the film file. Calls that take a film's numbers and no file name the offsets that these would have in one, with weights:
 * film_write, film_form and film_convert in a gauged film's, film_write_coefficients in a coefficient film's. The numeric calls are those
 * from film_relax to film_run.
 *
 * Where several would do, the call names the first that it tests for; each call lists its tests in their order.
 *
 * What the caller has to see to, since C cannot say it: a slice is a pointer and, right after it, the number of its elements. No
 * pointer is null, also with no elements; each is aligned for its type and valid for the whole call. What a call may write (a
 * pointer without const) overlaps nothing else that it is lent. A bool is 0 or 1. Beyond that a call asks nothing: any numbers and
 * any lengths will do.
 */
#ifndef FILM_H
#define FILM_H

#include <stdbool.h>
#include <stddef.h>
#include <stdint.h>

#ifdef __cplusplus
extern "C" {
#endif

/* A film's head: its shape and its ceiling. Make one by named members (in C++ before C++20: from {}, and then member by member),
 *
 *    film_head head = { .rows = 16, .columns = 32, .ceiling = 4000 };
 *
 * so that members which come later are 0, and a film that says nothing of them stays what it is. The library takes a head as an array of
 * these numbers in this order; a struct of three uint32_t has the layout of the array. */
typedef struct film_head {
    uint32_t rows;    /* R, 1 to 32 */
    uint32_t columns; /* C, 1 to 32 */
    uint32_t ceiling; /* 1 to 16,777,216 pressure steps */
} film_head;

/* A gauged film's steps, field 0A, for grids that are coarser one way than the other. Links within a row are multiplied by `along`, links
 * between rows by `across`, those to the ring too; sources are not. A film without the field has links as they are; one that has it with 1 and
 * 1 has the same links, and is another file. Make them as a head,
 *
 *    film_steps none = { 0 }, steps = { .given = 1, .along = 4, .across = 1 };
 *
 * The library takes them, too, as an array of these numbers in this order. */
typedef struct film_steps {
    uint32_t given;  /* 0: the film has no field 0A, and the two below are neither read nor tested; any other number: it has one */
    uint32_t along;  /* 1 to 4 */
    uint32_t across; /* 1 to 4 */
} film_steps;

#if defined(__cplusplus) && __cplusplus >= 201103L
static_assert(sizeof(film_head) == 3 * sizeof(uint32_t), "film_head has the layout of an array");
static_assert(sizeof(film_steps) == 3 * sizeof(uint32_t), "film_steps has the layout of an array");
#elif defined(__STDC_VERSION__) && __STDC_VERSION__ >= 201112L
_Static_assert(sizeof(film_head) == 3 * sizeof(uint32_t), "film_head has the layout of an array");
_Static_assert(sizeof(film_steps) == 3 * sizeof(uint32_t), "film_steps has the layout of an array");
#endif

/* Reads a gauged film's file. `weights` has 1,024 elements and `thicknesses` 1,156, whatever the film; those beyond the film's N and T keep
 * their contents. Writes the film's head, its wedge and its steps: given = 1 and both numbers, or given = 0 alone, where the film has no field
 * 0A. Where field 03 is empty, `weights` gets the N weights that are found.
 * Refusals: 10, then the fields in their order, each with 1 (header), 2, 3, 1 (body) and its values (4, 5, 6, 7, 8); behind field 05, if 0A
 * stands there, that field with 1, 3, 1 and 15; then 2 for what follows, then 9, or, where field 03 is empty, 16 or 17. A coefficient film is
 * refused with 2 at its tag 06. */
uint32_t film_read(const uint8_t *file, size_t file_len,
                   uint16_t *weights, size_t weights_len, uint8_t *thicknesses, size_t thicknesses_len,
                   film_head *head, int32_t *wedge, film_steps *steps, size_t *place);

/* Writes a gauged film's file. `weights` has N elements, `thicknesses` T, and `out` exactly the file's length, 25 + 2 * N + T, and 5 more
 * where steps are given. It writes no file without weights: for `weights` without elements it is refused with 10.
 * Refusals: 4, 10, 5, 6, 7, 8, 15, 9. */
uint32_t film_write(const film_head *head,
                    const uint16_t *weights, size_t weights_len, const uint8_t *thicknesses, size_t thicknesses_len,
                    int32_t wedge, const film_steps *steps, uint8_t *out, size_t out_len, size_t *place);

/* Forms the coefficients of a gauged film from its thicknesses, wedge and steps. `weights`, `diagonals`, `rights`, `ups` and `sources` have N
 * elements, `thicknesses` has T. The link of two neighbours, or of a cell and its neighbour on the ring, is the cube of the sum of their two
 * thicknesses, times `along` within a row and `across` between rows where steps are given; a diagonal is the sum of the cell's four links; a
 * source is wedge * (thickness of the next column - thickness of the column before) in the cell's row. Refusals: 4, 10, 5, 6, 7, 8, 15, 9. */
uint32_t film_form(const film_head *head,
                   const uint16_t *weights, size_t weights_len, const uint8_t *thicknesses, size_t thicknesses_len,
                   int32_t wedge, const film_steps *steps,
                   uint32_t *diagonals, size_t diagonals_len, uint32_t *rights, size_t rights_len,
                   uint32_t *ups, size_t ups_len, int64_t *sources, size_t sources_len,
                   size_t *place);

/* A film as coefficients has a weight, a diagonal, two links and a source for each cell, formed or from a mesh of the caller's own.
 *
 *    diagonals  1 to 268,435,456
 *    rights     right links, to the cell in the next column, 0 to 67,108,864; 0 in the last column
 *    ups        up links, to the cell in the next row, 0 to 67,108,864; 0 in the last row
 *    sources    -1,125,899,906,842,624 to 1,125,899,906,842,624, both ends included
 *
 * Outside these limits is refusal 14, at the lowest cell with such a number. A link serves both of its cells. Links to the ring count in the
 * diagonals alone, since the ring's pressure is 0.
 *
 * The slack of a cell in a field is diagonal * its pressure + source - the sum of link * neighbour's pressure over its neighbours inside the
 * grid. A field meets the film when no pressure is above the ceiling and no slack is negative. The weighted row sum of a cell, which has to
 * be at least 1 (refusal 9), is the slack with weights for pressures and source 0. */

/* Reads a coefficient film's file. Each of the five buffers has 1,024 elements, whatever the film; those beyond the film's N keep their
 * contents. Writes the film's head. Where field 03 is empty, `weights` gets the N weights that are found.
 * Refusals: 10, then the fields in their order, each with 1 (header), 2, 3, 1 (body) and its values (4, 5, 6; none for 06 to 09), then 2 for
 * what follows, then 14, then 9, or, where field 03 is empty, 16 or 17. A gauged film is refused with 2 at its tag 04. */
uint32_t film_read_coefficients(const uint8_t *file, size_t file_len,
                                uint16_t *weights, size_t weights_len, uint32_t *diagonals, size_t diagonals_len,
                                uint32_t *rights, size_t rights_len, uint32_t *ups, size_t ups_len,
                                int64_t *sources, size_t sources_len,
                                film_head *head, size_t *place);

/* Writes a coefficient film's file. The five slices have N elements, and `out` exactly the file's length, 27 + 22 * N. It writes no file
 * without weights: for `weights` without elements it is refused with 10. Refusals: 4, 10, 5, 6, 14, 9. */
uint32_t film_write_coefficients(const film_head *head,
                                 const uint16_t *weights, size_t weights_len, const uint32_t *diagonals, size_t diagonals_len,
                                 const uint32_t *rights, size_t rights_len, const uint32_t *ups, size_t ups_len,
                                 const int64_t *sources, size_t sources_len,
                                 uint8_t *out, size_t out_len, size_t *place);

/* Converts a gauged film: writes the file of the coefficient film of the same problem, whose coefficients are those that film_form forms.
 * Steps are worked into its links. `weights` has N elements, `thicknesses` T, and `out` exactly the file's length, 27 + 22 * N.
 * Refusals: 4, 10, 5, 6, 7, 8, 15, 9, at the offsets of the gauged film's file. */
uint32_t film_convert(const film_head *head,
                      const uint16_t *weights, size_t weights_len, const uint8_t *thicknesses, size_t thicknesses_len,
                      int32_t wedge, const film_steps *steps, uint8_t *out, size_t out_len, size_t *place);

/* The numeric calls below take a film as coefficients, of whichever kind its file was: `weights`, `diagonals`, `rights`, `ups`, `sources`
 * and `field` have N elements. */

/* Relaxes cell `at` of the field. Writes to result[0]: 0 if the cell is quiet, 1 if it was raised, 2 if it would pass the ceiling; and to
 * result[1] the pressure that it was raised to, else 0. The field changes in that cell alone, and only if it was raised.
 * Refusals: 4, 5, 10, 14, 6, 9, 12, 13. */
uint32_t film_relax(const film_head *head,
                    const uint16_t *weights, size_t weights_len, const uint32_t *diagonals, size_t diagonals_len,
                    const uint32_t *rights, size_t rights_len, const uint32_t *ups, size_t ups_len,
                    const int64_t *sources, size_t sources_len,
                    uint32_t *field, size_t field_len, size_t at, uint32_t result[2], size_t *place);

/* Writes the slack of cell `at` of the field to *slack. Refusals: 4, 5, 10, 14, 6, 9, 12, 13. */
uint32_t film_slack(const film_head *head,
                    const uint16_t *weights, size_t weights_len, const uint32_t *diagonals, size_t diagonals_len,
                    const uint32_t *rights, size_t rights_len, const uint32_t *ups, size_t ups_len,
                    const int64_t *sources, size_t sources_len,
                    const uint32_t *field, size_t field_len, size_t at, int64_t *slack, size_t *place);

/* Writes the film's margin to *margin: the least whole number K, 0 included, with K * weighted row sum at least the sum of the cell's inside
 * links (those to cells of the grid), at every cell. An estimate keeps K * weight below what it works out. Refusals: 4, 5, 10, 14, 6, 9. */
uint32_t film_margin(const film_head *head,
                     const uint16_t *weights, size_t weights_len, const uint32_t *diagonals, size_t diagonals_len,
                     const uint32_t *rights, size_t rights_len, const uint32_t *ups, size_t ups_len,
                     const int64_t *sources, size_t sources_len,
                     uint32_t *margin, size_t *place);

/* Proposes the C pressures of `proposal` for a line. Writes to result[0] 1 if they were accepted, 0 if they were rejected; and to
 * result[1] the number of cells raised. A rejected proposal leaves the field as it was.
 * Refusals: 4, 5, 10, 14, 6, 9, 12, 13. */
uint32_t film_propose(const film_head *head,
                      const uint16_t *weights, size_t weights_len, const uint32_t *diagonals, size_t diagonals_len,
                      const uint32_t *rights, size_t rights_len, const uint32_t *ups, size_t ups_len,
                      const int64_t *sources, size_t sources_len,
                      uint32_t *field, size_t field_len, uint32_t line,
                      const uint32_t *proposal, size_t proposal_len, uint32_t result[2], size_t *place);

/* Writes the program's own proposal for a line into the C elements of `proposal`. Refusals: 4, 5, 10, 14, 6, 9, 12, 13. */
uint32_t film_estimate(const film_head *head,
                       const uint16_t *weights, size_t weights_len, const uint32_t *diagonals, size_t diagonals_len,
                       const uint32_t *rights, size_t rights_len, const uint32_t *ups, size_t ups_len,
                       const int64_t *sources, size_t sources_len,
                       const uint32_t *field, size_t field_len, uint32_t line,
                       uint32_t *proposal, size_t proposal_len, size_t *place);

/* Makes a run: at most `budget` relaxations by ordering 0, 1 or 2 (rising, falling, even cells before odd), with the program's own
 * proposals for all lines before them or without. Writes to result[0]: 0 done, 1 stopped, 2 over; to result[1] the relaxations made, to
 * result[2] the raises among them, to result[3] the cells raised by proposals; and, if over, the cell that would pass the ceiling to *cell,
 * which is left as it was otherwise. Done leaves the least field at or above the start that meets the film; over means that none at or above
 * the start does.
 * Refusals: 4, 5, 10, 14, 6, 9, 11, 12. */
uint32_t film_run(const film_head *head,
                  const uint16_t *weights, size_t weights_len, const uint32_t *diagonals, size_t diagonals_len,
                  const uint32_t *rights, size_t rights_len, const uint32_t *ups, size_t ups_len,
                  const int64_t *sources, size_t sources_len,
                  uint32_t *field, size_t field_len, uint32_t budget, uint32_t order, bool proposals,
                  uint32_t result[4], size_t *cell, size_t *place);

/* Writes the report of a film file at the start of `out` and its length to *length; `out` has at least 33,288 elements, and those beyond the
 * report keep their contents. The file is read as film_read_coefficients does where the tag after field 03 is 06, else as film_read does. Where
 * field 03 is empty, that tag is at 15, and weights are found before the report's run, which has its own 4,000,000 relaxations. A file that
 * is refused has a report too, which says so. Refusal: 10. */
uint32_t film_report(const uint8_t *file, size_t file_len, uint8_t *out, size_t out_len, size_t *length, size_t *place);

#ifdef __cplusplus
}
#endif

#endif
