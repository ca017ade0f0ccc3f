/*
 * Solves the house file that is named as the argument, with limit 10,000 and tolerance 1e-8, and prints document 01's lines.
 *
 *   cc -std=c11 -Wall -Wextra -Werror -o solve bindings/c/solve.c target/staticlib/libeml.a
 */
#include "eml.h"

#include <inttypes.h>
#include <stdio.h>

static int failed(const char *path) {
    perror(path);
    return 1;
}

int main(int argc, char **argv) {
    if (argc != 2) {
        fprintf(stderr, "usage: %s FILE\n", argv[0]);
        return 2;
    }
    FILE *stream = fopen(argv[1], "rb");
    if (stream == NULL) {
        return failed(argv[1]);
    }
    /* One byte past the longest file is enough to refuse any longer one as a whole would be. */
    static uint8_t file[EML_LONGEST_FILE + 1];
    size_t length = fread(file, 1, sizeof file, stream);
    if (ferror(stream)) {
        return failed(argv[1]);
    }
    fclose(stream);

    eml_solution solution;
    uint8_t refusal = eml_solve_file_to(file, length, 10000, 1e-8, eml_usual_settings(), &solution);
    if (refusal != 0) {
        printf("refused %u\n", (unsigned)refusal);
    } else {
        printf("%s\n", eml_stop_word(solution.stop));
        if (solution.stop == EML_ASSIGNMENT) {
            printf("exact %d\n", solution.exact);
        } else {
            printf("best %016" PRIX64 "\n", eml_bits_of(solution.residual));
        }
        printf("halvings %zu\n", solution.halvings);
        for (size_t i = 0; i < solution.count; i++) {
            printf("v%zu %016" PRIX64 "\n", i, eml_bits_of(solution.point[i]));
        }
    }
    return fflush(stdout) == 0 ? 0 : failed("stdout");
}
