/* Three bars fill a line of 40 mm: poses the problem from nothing and prints the stretch that is chosen for each bar. */
#include "eml.h"

#include <stdio.h>
#include <stdlib.h>

static uint8_t nodes[EML_NODE_BYTES * EML_MOST_NODES], constraints[EML_CONSTRAINT_BYTES * 3];
static uint32_t count; /* of the nodes */

static void taken(uint8_t refusal) {
    if (refusal != 0) {
        fprintf(stderr, "refused %u: %s\n", (unsigned)refusal, eml_refusal_text(refusal));
        exit(1);
    }
}

/* The node of a - b, which is the last that is appended. */
static uint32_t sub(uint32_t a, uint32_t b) {
    taken(eml_canonical_sub(nodes, sizeof nodes, count, a, b));
    count += EML_SUB_NODES;
    return count - 1;
}

int main(void) {
    /* A bar's width is exp(x) - ln(y): x is its own stretch, y that of the next bar. */
    uint32_t x = eml_write_var(nodes, count++, 0);
    uint32_t y = eml_write_var(nodes, count++, 1);
    uint32_t z = eml_write_var(nodes, count++, 2);
    uint32_t first = eml_write_eml(nodes, count++, x, y);
    uint32_t second = eml_write_eml(nodes, count++, y, z);
    uint32_t third = eml_write_eml(nodes, count++, z, x);

    /* The third fits in what the others leave of the line, */
    uint32_t line = eml_write_var(nodes, count++, 3);
    uint32_t room = sub(sub(line, first), second);
    uint8_t *atom = constraints;
    taken(eml_le(nodes, sizeof nodes, count, third, room, atom, EML_CONSTRAINT_BYTES));
    count += EML_SUB_NODES;
    /* and they fill at least 39 mm of it. */
    uint32_t least = eml_write_var(nodes, count++, 4);
    uint32_t need = sub(sub(least, first), second);
    atom += EML_CONSTRAINT_BYTES;
    taken(eml_ge(nodes, sizeof nodes, count, third, need, atom, EML_CONSTRAINT_BYTES));
    count += EML_SUB_NODES;
    eml_write_and(constraints, 2, 2);

    /* The line and the least of it are ranges too: a constant there often ends in a false conflict. */
    const double lo[] = {1.5, 2.0, 1.5, 39.75, 39.0}, hi[] = {2.5, 3.0, 3.0, 40.0, 39.25};
    const size_t length = EML_NODE_BYTES * count;
    eml_solution solution;
    const eml_settings settings = eml_usual_settings();
    taken(eml_solve_to(nodes, length, constraints, sizeof constraints, lo, 5, hi, 5, 10000, 1e-8, settings, &solution));
    if (solution.stop != EML_ASSIGNMENT) {
        printf("%s\n", eml_stop_word(solution.stop));
        return 1;
    }
    for (int bar = 1; bar <= 3; bar++) {
        printf("bar %d: stretch %.6f\n", bar, solution.point[bar - 1]);
    }
    return 0;
}
