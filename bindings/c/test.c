/* The records that eml.h's inline functions write, byte by byte, and that the library takes them. */
#include "eml.h"

#include <stdio.h>
#include <string.h>

static const uint8_t NODES[] = {
    0, 0, 0, 0, 0, 0, 0, 0, 0, 0, 0, 0, 0, 0, 0,    0,    /* One */
    1, 0, 0, 0, 0, 0, 0, 0, 0, 0, 0, 0, 0, 0, 0xE0, 0x3F, /* Const 0.5 */
    2, 0, 0, 0, 3, 0, 0, 0, 0, 0, 0, 0, 0, 0, 0,    0,    /* Var 3 */
    3, 0, 0, 0, 2, 0, 0, 0, 1, 0, 0, 0, 0, 0, 0,    0     /* Eml 2 1 */
};

static const uint8_t CONSTRAINTS[] = {
    1,  0, 0, 0, 3,  0, 0, 0, 0, 0, 0, 0, 0, 0, 0,    0,    0, 0, 0, 0, 0, 0, 0,    0,    /* GtZero 3 */
    6,  0, 0, 0, 0,  0, 0, 0, 0, 0, 0, 0, 0, 0, 0,    0,    0, 0, 0, 0, 0, 0, 0,    0,    /* Not */
    5,  0, 0, 0, 0,  0, 0, 0, 0, 0, 0, 0, 0, 0, 0,    0,    0, 0, 0, 0, 0, 0, 0,    0,    /* NeZero 0 */
    8,  0, 0, 0, 2,  0, 0, 0, 0, 0, 0, 0, 0, 0, 0,    0,    0, 0, 0, 0, 0, 0, 0,    0,    /* Or 2 */
    9,  0, 0, 0, 3,  0, 0, 0, 0, 0, 0, 0, 0, 0, 0xF0, 0xBF, 0, 0, 0, 0, 0, 0, 0xF0, 0x3F, /* ForAll 3 [-1,1] */
    10, 0, 0, 0, 15, 0, 0, 0, 0, 0, 0, 0, 0, 0, 0,    0x40, 0, 0, 0, 0, 0, 0, 0,    0x40, /* Exists 15 [2,2] */
    7,  0, 0, 0, 1,  0, 0, 0, 0, 0, 0, 0, 0, 0, 0,    0,    0, 0, 0, 0, 0, 0, 0,    0     /* And 1 */
};

static void write_nodes(uint8_t *nodes) {
    uint32_t count = 0;
    eml_write_one(nodes, count++);
    uint32_t half = eml_write_const(nodes, count++, 0.5);
    uint32_t x = eml_write_var(nodes, count++, 3);
    eml_write_eml(nodes, count++, x, half);
}

static void write_constraints(uint8_t *constraints) {
    uint32_t count = 0;
    eml_write_atom(constraints, count++, EML_KIND_GT_ZERO, 3);
    eml_write_not(constraints, count++);
    eml_write_atom(constraints, count++, EML_KIND_NE_ZERO, 0);
    eml_write_or(constraints, count++, 2);
    eml_write_forall(constraints, count++, 3, -1.0, 1.0);
    eml_write_exists(constraints, count++, 15, 2.0, 2.0);
    eml_write_and(constraints, count++, 1);
}

int main(void) {
    uint8_t nodes[sizeof NODES], constraints[sizeof CONSTRAINTS];
    memset(nodes, 0xAA, sizeof nodes);
    memset(constraints, 0xAA, sizeof constraints);
    write_nodes(nodes);
    write_constraints(constraints);
    if (memcmp(nodes, NODES, sizeof nodes) != 0 || memcmp(constraints, CONSTRAINTS, sizeof constraints) != 0) {
        printf("a record has other bytes\n");
        return 1;
    }
    uint8_t refusal = eml_read_records(nodes, sizeof nodes, constraints, sizeof constraints);
    if (refusal != 0) {
        printf("refused %u: %s\n", (unsigned)refusal, eml_refusal_text(refusal));
        return 1;
    }
    return 0;
}
