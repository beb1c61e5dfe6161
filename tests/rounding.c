/* rounding MODE: answers the lines of its input with the processor's floating-point environment set to MODE, which the header asks a caller not
 * to do: 0 to 3 round to nearest, upward, downward and toward zero, and 4 rounds to nearest and flushes subnormal numbers to zero. A line
 * "(root F)" is answered by delvouzh_sqrt, every other by delvouzh_answer_line. tests/rounding compares what it prints. */
#include <fenv.h>
#include <stdint.h>
#include <stdio.h>
#include <stdlib.h>
#include <string.h>
#include <xmmintrin.h>

#include "delvouzh.h"

enum { MODES = 5, SCRATCH = 1024, LINE = 4200, FLUSH = 0x8040 /* of MXCSR: results to zero, and operands as zero */ };

static void set_mode(int mode) {
    static const int rounding[MODES] = {FE_TONEAREST, FE_UPWARD, FE_DOWNWARD, FE_TOWARDZERO, FE_TONEAREST};
    fesetround(rounding[mode]);
    if (mode == 4) _mm_setcsr(_mm_getcsr() | FLUSH);
}

static void unset_mode(void) {
    fesetround(FE_TONEAREST);
    _mm_setcsr(_mm_getcsr() & ~(unsigned)FLUSH);
}

static void answer_root(int mode, const char *digits) {
    uint64_t bits = strtoull(digits, NULL, 16);
    double x;
    memcpy(&x, &bits, sizeof x);
    set_mode(mode);
    x = delvouzh_sqrt(x);
    unset_mode();
    memcpy(&bits, &x, sizeof bits);
    printf("(root %016llx)\n", (unsigned long long)bits);
}

static int answer_line(int mode, const char *line) {
    static double scratch[SCRATCH], engine_numbers[DELVOUZH_ENGINE_NUMBERS];
    static size_t engine_counts[DELVOUZH_ENGINE_COUNTS];
    static unsigned char answer[DELVOUZH_ANSWER];
    size_t number, written = 0;
    set_mode(mode);
    number = delvouzh_answer_line((const unsigned char *)line, strlen(line), scratch, SCRATCH, engine_numbers, DELVOUZH_ENGINE_NUMBERS,
                                  engine_counts, DELVOUZH_ENGINE_COUNTS, answer, DELVOUZH_ANSWER, &written, 1);
    unset_mode();
    if (number != 0 || written > DELVOUZH_ANSWER) return 0;
    printf("%.*s\n", (int)written, (const char *)answer);
    return 1;
}

int main(int argc, char **argv) {
    static char line[LINE];
    const int mode = argc == 2 ? atoi(argv[1]) : -1;
    if (mode < 0 || mode >= MODES) return 2;
    while (fgets(line, LINE, stdin) != NULL) {
        line[strcspn(line, "\n")] = 0;
        if (strncmp(line, "(root ", 6) == 0)
            answer_root(mode, line + 6);
        else if (!answer_line(mode, line))
            return 1;
    }
    return 0;
}
