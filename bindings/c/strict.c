/* exp(v0) is to be above ln(exp(v1)), solved twice: as document 01 does, and in strict mode, where no exp is clamped. */
#include "eml.h"

#include <stdio.h>
#include <stdlib.h>

static uint8_t nodes[EML_NODE_BYTES * 5], constraints[EML_CONSTRAINT_BYTES];

static void solve(eml_settings settings) {
    const double lo[] = {6.5, 600.0}, hi[] = {6.63, 1000.0};
    eml_solution solution;
    const uint8_t refusal =
        eml_solve_to(nodes, sizeof nodes, constraints, sizeof constraints, lo, 2, hi, 2, 10000, 1e-8, settings, &solution);
    if (refusal != 0) {
        fprintf(stderr, "refused %u: %s\n", (unsigned)refusal, eml_refusal_text(refusal));
        exit(1);
    }
    printf("%s after %zu halvings", eml_stop_word(solution.stop), solution.halvings);
    for (size_t i = 0; i < solution.count; i++) {
        printf(", v%zu %.3f", i, solution.point[i]);
    }
    printf("\n");
}

int main(void) {
    eml_write_var(nodes, 0, 0);
    eml_write_var(nodes, 1, 1);
    eml_write_one(nodes, 2);
    eml_write_eml(nodes, 3, 1, 2);
    eml_write_eml(nodes, 4, 0, 3);
    eml_write_atom(constraints, 0, EML_KIND_GT_ZERO, 4);

    eml_settings settings = eml_usual_settings();
    solve(settings);
    settings.strict = true; /* for print, no stretch may be found only because exp was clamped */
    solve(settings);
    return 0;
}
