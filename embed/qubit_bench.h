/* The answer to a sheet, from the library libqubit_bench.a. README.md says what a sheet is and what is printed for it.
 *
 * The function is total: it answers every sheet, of any bytes and any length, with buffers of any lengths. It allocates nothing, keeps no state
 * between calls, opens no file and ends no program. The same sheet and the same lengths give the same text, whatever the buffers held before.
 * It may be called from several threads at once if each has buffers of its own. It needs less than 512 KB of stack, which a thread usually has.
 *
 * What the caller sees to: each pointer is not NULL, is aligned for its type and reaches as many elements as its length says (with length 0 none
 * are touched); no buffer overlaps another; and the processor rounds binary64 to nearest and keeps subnormal numbers, as it does unless a program
 * changes that. */

#ifndef QUBIT_BENCH_H
#define QUBIT_BENCH_H

#include <stddef.h>
#include <stdint.h>

/* Lengths of the buffers for sheets with `limit=` at most `limit` and `qubits=` at most `qubits`. */
#define QUBIT_BENCH_WORDS(limit, qubits) ((size_t)4 * (limit) * (((qubits) + 63) / 64))
#define QUBIT_BENCH_COEFFS(limit) ((size_t)2 * (limit))
#define QUBIT_BENCH_INDEX(limit) ((size_t)6 * (limit) + 2)
#define QUBIT_BENCH_MEANS 256 /* enough for every sheet */
#define QUBIT_BENCH_OUT 8192  /* enough for every text: the longest has less than 5,000 bytes */

#ifdef __cplusplus
extern "C" {
#endif

/* Writes the text of the answer to `out` and returns how many bytes were written.
 *
 * A row is one term of the sum: 2 * W numbers of `words`, where W is qubits / 64 rounded up, and 1 number of `coeffs`. There are as many rows as
 * both buffers hold whole: the smaller of words_len / (2 * W) and coeffs_len. A run needs 2 * limit rows.
 *
 * sheet      The bytes of the sheet, only read. No zero byte ends them.
 * sheet_len  How many bytes: any number, 0 too. What is not a whole sheet is refused with 1.
 *
 * words      The Pauli words of the rows. Row i starts at words[2 * W * i] and has W words x, then W words z; qubit q is bit q % 64 of word q / 64 of
 *            each. x alone is X, z alone is Z, and both are X times Z, which is -i times Y.
 * words_len  Any number. Too short for 2 * limit rows: refusal 7. QUBIT_BENCH_WORDS is enough.
 *
 * coeffs     The coefficients of the rows. One part of each is zero, and coeffs[i] is the other: the imaginary part where the qubits of row i with
 *            both x and z set are odd in number, else the real part.
 * coeffs_len Any number. Too short for 2 * limit rows: refusal 7. QUBIT_BENCH_COEFFS is enough.
 *
 *            After status 0 the rows hold the terms that are left at the end of the run, in order, and then zeros; after `run=all`, and where each
 *            term had to be run alone since all together met `limit`, only zeros. After 8 and 9 all rows are zero. After 1 to 7 they are as
 *            they were. What the buffers hold beyond the last whole row is never touched.
 *
 * index      Work space in which equal words are found quickly. After 1 to 7 it is as it was, after a run all zeros.
 * index_len  Any number, 0 too. Shorter than QUBIT_BENCH_INDEX of the sheet's limit: the same answer, but where it does not hold an entry for each term all rows
 *            are searched for each row, so that time grows with the square of the terms (16,384 terms: 0.84 s, and 1 ms with an index).
 *
 * means      For `run=all`: after status 0 the mean of Z on each qubit, qubit 0 first; after 8 and 9 zero in these places. No place beyond the first
 *            `qubits` is touched, and none by other runs or after 1 to 7.
 * means_len  Any number. Fewer than `qubits` and `run=all`: refusal 7. Other runs need none. QUBIT_BENCH_MEANS is enough.
 *
 * out        The text, as the program `bench` prints it, from its first byte on; no zero byte is put after it. What lies beyond the text is as it was.
 * out_len    Any number. Too short: the text is cut there. QUBIT_BENCH_OUT is enough.
 *
 * returns    The smaller of the length of the text and out_len.
 *
 * The text is lines, each ended by byte 10: `status=N`, `line=L`, `mean=`, `shown=`, `t_count=`, `peak_terms=`, `touched=`, `discarded=` and, for `run=all`,
 * a line `z=` for each qubit. README.md says what each is. N is 0, or says why there is no answer; then all results in the text are 0. L is the first line of
 * the sheet at fault, counted from 1, or 0.
 *
 * 1  The sheet is not laid out as a sheet is: line L is wrong or missing, or something follows the last line.
 * 2  Too large or empty: qubits are 1 to 256, limit 1 to 1,048,576, terms at most 1,024 and at most limit, ops at most 4,096.
 * 3  Not for this run: `cone` takes one term of weight 1, `all` takes no terms, and noise channels stand only in `path` and `wide`.
 * 4  A real number is out of its range: epsilon is finite and at least 0, weights are finite, sines and cosines are from -1 to 1, rates from 0 to 1.
 * 5  A qubit of a term or an op is not below `qubits`. Of 5 and 6 the one on the earlier line is given; on one line 5.
 * 6  A qubit stands twice in one term, or in both targets of one op.
 * 7  Too little memory was lent: fewer than 2 * limit rows, or for `all` fewer mean places than qubits. L is 0.
 * 8  During the run a number went beyond what binary64 holds. L is 0.
 * 9  The circuit made more terms than `limit`: raise it, or truncate by `epsilon` and `max_terms`. L is 0.
 * 11 A sine and a cosine are no angle: cut to whole multiples of 2^-60, their squares differ from 1 in sum by more than 2^-50; or the rates of `pauli`, cut
 *    alike, sum to more than 1. Asked after 4. Memory is as after 1 to 7. */
size_t qubit_bench_answer(const uint8_t *sheet, size_t sheet_len,
                          uint64_t *words, size_t words_len,
                          double *coeffs, size_t coeffs_len,
                          uint32_t *index, size_t index_len,
                          double *means, size_t means_len,
                          uint8_t *out, size_t out_len);

#ifdef __cplusplus
}
#endif

#endif
