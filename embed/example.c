/* Answers the sheet in the file that is named, or a Bell pair, and prints the text.
 *
 *   cc -O2 -o example embed/example.c -Lcrates/qubit_bench/out -lqubit_bench
 *   ./example sheets/noisy.sheet */

#include "qubit_bench.h"

#include <stdio.h>
#include <string.h>

/* Room for every sheet with limit at most 256, as `bench` has. */
#define LIMIT 256
#define QUBITS 256
static uint64_t words[QUBIT_BENCH_WORDS(LIMIT, QUBITS)];
static double coeffs[QUBIT_BENCH_COEFFS(LIMIT)];
static uint32_t index_space[QUBIT_BENCH_INDEX(LIMIT)];
static double means[QUBIT_BENCH_MEANS];
static uint8_t out[QUBIT_BENCH_OUT];
static uint8_t sheet[1 << 20];

/* The mean of Z on wire 0 times Z on wire 1, after a Hadamard gate and a controlled NOT: 1. */
static const char bell[] = "qubits=2\nrun=full\nepsilon=0000000000000000\nmax_terms=0\nlimit=256\n"
                           "terms=1\nterm=3ff0000000000000:Z0,Z1\nops=2\nop=h:0\nop=cx:0,1\n";

int main(int argc, char **argv) {
    size_t sheet_len = sizeof bell - 1;
    memcpy(sheet, bell, sheet_len);
    if (argc > 1) {
        FILE *file = fopen(argv[1], "rb");
        if (file == NULL) {
            perror(argv[1]);
            return 1;
        }
        sheet_len = fread(sheet, 1, sizeof sheet, file);
        int is_whole = sheet_len < sizeof sheet && !ferror(file);
        fclose(file);
        if (!is_whole) {
            fprintf(stderr, "%s: not read whole\n", argv[1]);
            return 1;
        }
    }
    size_t count = qubit_bench_answer(sheet, sheet_len, words, QUBIT_BENCH_WORDS(LIMIT, QUBITS), coeffs,
                                      QUBIT_BENCH_COEFFS(LIMIT), index_space, QUBIT_BENCH_INDEX(LIMIT), means,
                                      QUBIT_BENCH_MEANS, out, sizeof out);
    return fwrite(out, 1, count, stdout) == count ? 0 : 1;
}
