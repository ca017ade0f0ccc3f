/* exp(v0) is to equal ln(v1), solved twice with at most 20 halvings: by document 01's numbers, and with a wider equality tolerance. */
#include "eml.h"

#include <stdio.h>
#include <stdlib.h>

static uint8_t nodes[EML_NODE_BYTES * 3], constraints[EML_CONSTRAINT_BYTES * 2];

static void solve(eml_settings settings) {
    const double lo[] = {0.0, 1.0, 0.0}, hi[] = {1.0, 16.0, 0.0};
    eml_solution solution;
    const uint8_t refusal =
        eml_solve_to(nodes, sizeof nodes, constraints, sizeof constraints, lo, 3, hi, 3, 20, 1e-8, settings, &solution);
    if (refusal != 0) {
        fprintf(stderr, "refused %u: %s\n", (unsigned)refusal, eml_refusal_text(refusal));
        exit(1);
    }
    printf("%s after %zu halvings\n", eml_stop_word(solution.stop), solution.halvings);
}

int main(void) {
    eml_write_var(nodes, 0, 0);
    eml_write_var(nodes, 1, 1);
    eml_write_eml(nodes, 2, 0, 1);
    eml_write_atom(constraints, 0, EML_KIND_EQ_ZERO, 2);
    /* Under a quantifier of a variable of its own narrowing does nothing, and the boxes are only halved. */
    eml_write_forall(constraints, 1, 2, -1.0, 1.0);

    eml_settings settings = eml_usual_settings();
    solve(settings);
    settings.equality = 0.001; /* for a draft, an equation may be a thousandth off */
    solve(settings);
    return 0;
}
