/*
 * The calls of the proved stretch solver (target/staticlib/libeml.a, which `tools/library` writes).
 *
 * Every answer is fixed to the bit by documents 01 and 02, and the code behind each call is proved to give it. Nothing is
 * allocated, nothing is kept between calls, and any thread may call.
 *
 * A slice is a pointer and a length, which counts elements. No pointer may be NULL, also where the length is 0, but for the
 * bounds of eml_solve_to; and what a call writes must not overlap anything else that it was lent. The contents may be anything:
 * what is not sound is refused.
 *
 * A call that can refuse returns 0, or the number of a refusal (EML_REFUSED_HEADER and on); a refusal writes nothing.
 *
 * Calls given records (`nodes` of 16 bytes each, `constraints` of 24, as in a house file) test them first, in the file's
 * order, and refuse with 2 to 7 as the reader does. The numbers named at a call come after these, in the order in which they
 * are named.
 */
#ifndef EML_H
#define EML_H

#include <stdbool.h>
#include <stddef.h>
#include <stdint.h>

#ifdef __cplusplus
extern "C" {
#endif

/* The version of this header, which is the Rust package's; the library has none of its own. */
#define EML_VERSION_MAJOR 0
#define EML_VERSION_MINOR 2
#define EML_VERSION_PATCH 0
#define EML_VERSION "0.2.0"

/* ---- the house file's numbers; numbers in a file are little-endian */

/* The bytes before the nodes, and those of a node, a constraint's record and a bound. */
#define EML_HEADER_BYTES 32
#define EML_NODE_BYTES 16
#define EML_CONSTRAINT_BYTES 24
#define EML_BOUND_BYTES 16

/* The most nodes and records of constraints. */
#define EML_MOST_NODES 1024
#define EML_MOST_CONSTRAINTS 256
/* The most values of a point, variables, bounds or boxes. */
#define EML_MOST_VALUES 16
/* The bytes of the longest house file; a longer one is refused. */
#define EML_LONGEST_FILE 22816

/* The largest expanded size and depth of a node, depth of a constraint, and number of quantifiers on a path. */
#define EML_MOST_SIZE 4096
#define EML_MOST_DEPTH 128
#define EML_MOST_CONSTRAINT_DEPTH 16
#define EML_MOST_QUANTIFIERS 4
/* The highest limit of halvings. */
#define EML_MOST_LIMIT 1000000

/* Byte 0 of a node. */
enum {
    EML_NODE_ONE = 0,   /* the number 1 */
    EML_NODE_CONST = 1, /* a finite double, at 8 */
    EML_NODE_VAR = 2,   /* a variable, 0 to 15, at 4 */
    EML_NODE_EML = 3    /* exp(left) - ln(right): numbers of nodes before it, at 4 and at 8 */
};

/*
 * Byte 0 of a constraint's record; its argument is at 4, and the range of a quantifier, lo and hi, at 8 and at 16. Records are
 * in postorder: one that takes others comes after them. What a kind says is as the check tests it under document 01's settings.
 * Under others their equality tolerance stands in the place of 1e-8, and their slack in that of 1e-12 (eml_settings).
 */
enum {
    EML_KIND_EQ_ZERO = 0, /* of the node that the argument names: |v| < 1e-8, v being its value */
    EML_KIND_GT_ZERO = 1, /* v > 0 */
    EML_KIND_GE_ZERO = 2, /* v >= -1e-12 */
    EML_KIND_LT_ZERO = 3, /* v < 0 */
    EML_KIND_LE_ZERO = 4, /* v <= 1e-12 */
    EML_KIND_NE_ZERO = 5, /* |v| > 1e-12 */
    EML_KIND_NOT = 6,     /* takes the last finished constraint; the argument is 0 */
    EML_KIND_AND = 7,     /* takes the last so many, which all hold */
    EML_KIND_OR = 8,      /* takes the last so many, of which at least one holds */
    EML_KIND_FORALL = 9,  /* takes the last one, which holds with the argument's variable at lo, (lo + hi) / 2 and hi */
    EML_KIND_EXISTS = 10  /* takes the last one, which holds with that variable at one of these */
};

/* What a call that can refuse returns, when it does. The writer of a file can cause 1 to 7, the caller 8 to 10 and 14. */
enum {
    EML_REFUSED_HEADER = 1,
    EML_REFUSED_LAYOUT = 2,
    EML_REFUSED_NODE = 3,
    EML_REFUSED_EXTENT = 4,
    EML_REFUSED_CONSTRAINT = 5,
    EML_REFUSED_RANGE = 6,
    EML_REFUSED_NESTING = 7,
    EML_REFUSED_LIMIT_OR_TOLERANCE = 8,
    EML_REFUSED_BOXES = 9,
    EML_REFUSED_TOO_SHORT = 10,
    EML_REFUSED_PARAMETER = 14
};

/* The words for what such a call returned. */
static inline const char *eml_refusal_text(uint8_t refusal) {
    switch (refusal) {
    case 0: return "not refused";
    case EML_REFUSED_HEADER: return "under 32 bytes, or wrong first eight bytes";
    case EML_REFUSED_LAYOUT: return "counts, offsets or length";
    case EML_REFUSED_NODE: return "node record";
    case EML_REFUSED_EXTENT: return "expanded size or depth";
    case EML_REFUSED_CONSTRAINT: return "constraint record, or too few finished constraints";
    case EML_REFUSED_RANGE: return "unsound range";
    case EML_REFUSED_NESTING: return "constraint depth, quantifier count, or not just one left";
    case EML_REFUSED_LIMIT_OR_TOLERANCE: return "limit above 1,000,000 or NaN tolerance";
    case EML_REFUSED_BOXES: return "over 16 boxes or variables, or an unsound box or range";
    case EML_REFUSED_TOO_SHORT: return "output slice or node list too short";
    case EML_REFUSED_PARAMETER: return "a parameter outside its range";
    default: return "no number of a refusal";
    }
}

/* ---- settings */

/*
 * The four numbers of document 01 that a caller may change, and whether evaluation is strict. Each call that uses one of these
 * gets all of them, by value, and takes document 01's steps with the numbers. After the file or the records (eml_eval_real: and
 * after the node's number), and before all else that it was given, it tests the numbers, and refuses with 14 where one is
 * outside its range or a NaN, also where it would not use that one. An imaginary part below 1e-12 still counts as none, and
 * the 1e-12 in the residual of a Not stays too.
 */
typedef struct eml_settings {
    /* Narrowing goes over the constraint until nothing changes, but at most so many times: 1 to 100. */
    size_t rounds;
    /* The equality tolerance, above the slack and finite: EML_KIND_EQ_ZERO passes the check where |v| < equality. */
    double equality;
    /*
     * The slack, above 0. In the check, EML_KIND_GE_ZERO passes where v >= -slack, EML_KIND_LE_ZERO where v <= slack, and
     * EML_KIND_NE_ZERO where |v| > slack. In narrowing, EML_KIND_NE_ZERO is a conflict where v's range is narrower than the slack
     * and its lower end is nearer to 0 than that; and a variable's range stays as it was where neither end would move inward by
     * more than the slack, but for the step off 0 of EML_KIND_NE_ZERO.
     */
    double slack;
    /*
     * The clamp, 1 to 709. At a point, exp of an argument above it is exp(clamp), and of one below its negative exp(-clamp),
     * unless evaluation is strict (below). Narrowing does not clamp. Since ln(x) is made as e - ln(exp(e - ln(x))), and x - y
     * as exp(ln(x)) - ln(exp(y)), in a comparison y counts as no less than -clamp and no more than clamp, and the magnitude of
     * x, whose sign stays, as no less than exp(e - clamp) and no more than exp(clamp): under a clamp of 5 each x from 0 to
     * 0.1021 counts as 0.1021, and -0.05 as -0.1021. Under a clamp below e/2 every magnitude of x counts as exp(clamp). Where
     * evaluation is strict, an x or a y beyond these ends is an error, and under a clamp below e/2 every x is.
     */
    double clamp;
    /*
     * Whether evaluation is strict; document 01's is not. Either value is taken. Assign it, so that every value but 0 becomes
     * true: a byte other than 0 and 1 that is copied to its place is no bool, and the flag may then count as off. A strict
     * evaluation clamps no exp: an Eml node whose left value has a real part above the clamp or below its negative, an
     * infinite one too, makes it answer EML_EVAL_EXP_OVERFLOW. This is an error as any other: an atom does not pass the check
     * where the evaluation of its node ends so, and its residual is +inf there, of EML_KIND_NE_ZERO 0.
     *
     * So with this set an assignment's constraint, if it has no EML_KIND_NOT, EML_KIND_FORALL or EML_KIND_EXISTS, was met
     * without clamping in the atoms that made it true. More is not promised: EML_KIND_NOT passes where what it takes fails by
     * an error; where errors make the residuals of both middles +inf, halving keeps the upper half, even where only the lower
     * one has points that can be evaluated, so the bounds should keep the arguments of exp within the clamp; and narrowing is
     * as without this: it takes exp of intervals, which it neither clamps nor tests.
     */
    bool strict;
} eml_settings;

/*
 * Document 01's numbers: 20, 1e-8, 1e-12 and 709. Not strict. To have others, change these, so that what a later version adds
 * is as usual:
 *
 *   eml_settings settings = eml_usual_settings();
 *   settings.equality = 0.001;
 */
eml_settings eml_usual_settings(void);

/* Tests settings, as each call that gets them does: 14, or 0. Strict or not, the answer is the same. */
uint8_t eml_test_settings(eml_settings settings);

/* ---- the bits of a double */

/* The double that has these bits. */
double eml_of_bits(uint64_t b);

/* The bits of a double; those of every NaN are 7FF8000000000000. */
uint64_t eml_bits_of(double x);

/* ---- house files */

/* Tests a file: 1 to 7, or 0. */
uint8_t eml_read(const uint8_t *file, size_t length);

/* Tests records given without a file: 2 to 7, or 0. */
uint8_t eml_read_records(const uint8_t *nodes, size_t nodes_length, const uint8_t *constraints, size_t constraints_length);

/*
 * The number of variables of a file's constraint, to `out`: one more than the highest, a quantified one too. Refused with 1 to
 * 7.
 */
uint8_t eml_num_vars(const uint8_t *file, size_t length, uint64_t *out);

/* The number of variables of a constraint given by records. Refused with 2 to 7. */
uint8_t eml_num_vars_records(const uint8_t *nodes, size_t nodes_length, const uint8_t *constraints,
                             size_t constraints_length, uint64_t *out);

/* A file's nodes and constraints, where they lie in it, and its bounds, as the calls given records take them. */
typedef struct eml_parts {
    const uint8_t *nodes;
    size_t nodes_length;
    const uint8_t *constraints;
    size_t constraints_length;
    size_t bounds; /* how many there are, in the first places of `lo` and `hi` */
    double lo[EML_MOST_VALUES];
    double hi[EML_MOST_VALUES];
} eml_parts;

/* Not for callers: the number that `bytes` bytes are, the lowest first. */
static inline uint64_t eml_get(const uint8_t *from, int bytes) {
    uint64_t x = 0;
    for (int i = 0; i < bytes; i++) {
        x |= (uint64_t)from[i] << (8 * i);
    }
    return x;
}

/*
 * Tests a file and gives its parts. With them a conflict gets a second look: eml_domain_new makes the starting box, and
 * eml_check tells whether its middle passes. Refused with 1 to 7.
 */
static inline uint8_t eml_file_parts(const uint8_t *file, size_t length, eml_parts *to) {
    const uint8_t refusal = eml_read(file, length);
    if (refusal != 0) {
        return refusal;
    }
    to->nodes = file + eml_get(file + 8, 4);
    to->nodes_length = EML_NODE_BYTES * (size_t)eml_get(file + 12, 4);
    to->constraints = file + eml_get(file + 16, 4);
    to->constraints_length = EML_CONSTRAINT_BYTES * (size_t)eml_get(file + 20, 4);
    to->bounds = (size_t)eml_get(file + 28, 4);
    const uint8_t *bound = file + eml_get(file + 24, 4);
    for (size_t i = 0; i < to->bounds; i++, bound += EML_BOUND_BYTES) {
        to->lo[i] = eml_of_bits(eml_get(bound, 8));
        to->hi[i] = eml_of_bits(eml_get(bound + 8, 8));
    }
    return 0;
}

/*
 * ---- writing records: each call writes one, that of number `number` in a list which has room for it, and returns the number.
 * What is written is tested where it is used.
 */

/* Not for callers: the lowest `bytes` bytes of x, the lowest first. */
static inline void eml_put(uint8_t *to, uint64_t x, int bytes) {
    for (int i = 0; i < bytes; i++) {
        to[i] = (uint8_t)(x >> (8 * i));
    }
}

/* Not for callers: a node of a kind, with what it has at 4 and at 8. */
static inline uint32_t eml_put_node(uint8_t *nodes, uint32_t number, uint8_t kind, uint32_t at4, uint64_t at8) {
    uint8_t *record = nodes + (size_t)EML_NODE_BYTES * number;
    eml_put(record, kind, 4);
    eml_put(record + 4, at4, 4);
    eml_put(record + 8, at8, 8);
    return number;
}

/* The number 1. */
static inline uint32_t eml_write_one(uint8_t *nodes, uint32_t number) {
    return eml_put_node(nodes, number, EML_NODE_ONE, 0, 0);
}

/* A finite number. */
static inline uint32_t eml_write_const(uint8_t *nodes, uint32_t number, double value) {
    return eml_put_node(nodes, number, EML_NODE_CONST, 0, eml_bits_of(value));
}

/* A variable, 0 to 15. */
static inline uint32_t eml_write_var(uint8_t *nodes, uint32_t number, uint32_t var) {
    return eml_put_node(nodes, number, EML_NODE_VAR, var, 0);
}

/* exp(left) - ln(right), of nodes before it. */
static inline uint32_t eml_write_eml(uint8_t *nodes, uint32_t number, uint32_t left, uint32_t right) {
    return eml_put_node(nodes, number, EML_NODE_EML, left, right);
}

/* Not for callers: a constraint's record of a kind, with its argument and range. */
static inline uint32_t eml_put_constraint(uint8_t *constraints, uint32_t number, uint8_t kind, uint32_t argument, double lo,
                                          double hi) {
    uint8_t *record = constraints + (size_t)EML_CONSTRAINT_BYTES * number;
    eml_put(record, kind, 4);
    eml_put(record + 4, argument, 4);
    eml_put(record + 8, eml_bits_of(lo), 8);
    eml_put(record + 16, eml_bits_of(hi), 8);
    return number;
}

/* A relation, EML_KIND_EQ_ZERO to EML_KIND_NE_ZERO, of a node's value. */
static inline uint32_t eml_write_atom(uint8_t *constraints, uint32_t number, uint8_t kind, uint32_t node) {
    return eml_put_constraint(constraints, number, kind, node, 0.0, 0.0);
}

/* The last finished constraint does not hold. */
static inline uint32_t eml_write_not(uint8_t *constraints, uint32_t number) {
    return eml_put_constraint(constraints, number, EML_KIND_NOT, 0, 0.0, 0.0);
}

/* Each of the last `taken` finished constraints holds. */
static inline uint32_t eml_write_and(uint8_t *constraints, uint32_t number, uint32_t taken) {
    return eml_put_constraint(constraints, number, EML_KIND_AND, taken, 0.0, 0.0);
}

/* At least one of the last `taken` finished constraints holds. */
static inline uint32_t eml_write_or(uint8_t *constraints, uint32_t number, uint32_t taken) {
    return eml_put_constraint(constraints, number, EML_KIND_OR, taken, 0.0, 0.0);
}

/* The last finished constraint holds with a variable at lo, at (lo + hi) / 2 and at hi. */
static inline uint32_t eml_write_forall(uint8_t *constraints, uint32_t number, uint32_t var, double lo, double hi) {
    return eml_put_constraint(constraints, number, EML_KIND_FORALL, var, lo, hi);
}

/* The last finished constraint holds with a variable at one of these. */
static inline uint32_t eml_write_exists(uint8_t *constraints, uint32_t number, uint32_t var, double lo, double hi) {
    return eml_put_constraint(constraints, number, EML_KIND_EXISTS, var, lo, hi);
}

/* ---- building, on a list of `count` nodes whose free places are the bytes after them */

/* How many nodes ln x and x - y append. */
#define EML_LN_NODES 4
#define EML_SUB_NODES 7

/*
 * Appends the four nodes of ln x, of which the last, number count + 3, is the result. The list is tested, with 2 to 4; then 3
 * is for an operand that names no node, 4 for the result's size or depth, and 10 for too few free places.
 */
uint8_t eml_canonical_ln(uint8_t *nodes, size_t nodes_length, size_t count, size_t x);

/* Appends the seven nodes of x - y, of which the last, number count + 6, is the result. Refused as eml_canonical_ln. */
uint8_t eml_canonical_sub(uint8_t *nodes, size_t nodes_length, size_t count, size_t x, size_t y);

/*
 * x < y, x <= y, x > y, x >= y: each appends as eml_canonical_sub and writes the record of the atom on the result to the first
 * 24 bytes of `out`. Refused as eml_canonical_sub, and with 10 where `out` is shorter.
 */
uint8_t eml_lt(uint8_t *nodes, size_t nodes_length, size_t count, size_t x, size_t y, uint8_t *out, size_t out_length);
uint8_t eml_le(uint8_t *nodes, size_t nodes_length, size_t count, size_t x, size_t y, uint8_t *out, size_t out_length);
uint8_t eml_gt(uint8_t *nodes, size_t nodes_length, size_t count, size_t x, size_t y, uint8_t *out, size_t out_length);
uint8_t eml_ge(uint8_t *nodes, size_t nodes_length, size_t count, size_t x, size_t y, uint8_t *out, size_t out_length);

/* ---- solving */

/* What `stop` is after a call that solves. A conflict is no proof that there is no point: narrowing does not round outward. */
enum { EML_ASSIGNMENT = 0, EML_CONFLICT = 1, EML_TOLERANCE = 2, EML_LIMIT = 3, EML_UNSATISFIED = 4 };

/* Document 01's stop word. */
static inline const char *eml_stop_word(uint8_t stop) {
    switch (stop) {
    case EML_ASSIGNMENT: return "assignment";
    case EML_CONFLICT: return "conflict";
    case EML_TOLERANCE: return "tolerance";
    case EML_LIMIT: return "limit";
    case EML_UNSATISFIED: return "unsatisfied";
    default: return "no stop word of document 01";
    }
}

/*
 * Solves a house file. `limit` is the most halvings, and a box is narrow below `tolerance`. An assignment has its values in the
 * first `count` places of `point`, and its `residual` is +0. It passes eml_check under the same settings. It is `exact` where
 * there are no variables, or the limit is above 0 and the box was narrower than the tolerance before any halving. Any other
 * answer has no values, its `exact` is false, and its residual is in `residual`: +inf for conflict and unsatisfied. `halvings`
 * is how many halves were written, at most `limit`. Refused with 1 to 7, 14, 8, and with 10 where `point` has fewer places than
 * the constraint has variables; 16 are enough for every file.
 */
uint8_t eml_solve_file(const uint8_t *file, size_t length, size_t limit, double tolerance, eml_settings settings,
                       uint8_t *stop, bool *exact, double *residual, size_t *halvings, size_t *count, double *point,
                       size_t point_length);

/*
 * Solves records in the box of the bounds, given by their lower and upper ends; a missing bound is [-10,10], a surplus one
 * unused. Answers as eml_solve_file. Refused with 14, 8, 9 (also where the two lists differ in length) and 10.
 */
uint8_t eml_solve(const uint8_t *nodes, size_t nodes_length, const uint8_t *constraints, size_t constraints_length,
                  const double *lo, size_t lo_length, const double *hi, size_t hi_length, size_t limit, double tolerance,
                  eml_settings settings, uint8_t *stop, bool *exact, double *residual, size_t *halvings, size_t *count,
                  double *point, size_t point_length);

/* An answer of the solver, with room for every point. */
typedef struct eml_solution {
    uint8_t stop;
    bool exact;
    double residual;
    size_t halvings;
    size_t count;
    double point[EML_MOST_VALUES];
} eml_solution;

/* eml_solve_file, with the answer in one place; so nothing is refused with 10. */
static inline uint8_t eml_solve_file_to(const uint8_t *file, size_t length, size_t limit, double tolerance,
                                        eml_settings settings, eml_solution *to) {
    return eml_solve_file(file, length, limit, tolerance, settings, &to->stop, &to->exact, &to->residual, &to->halvings,
                          &to->count, to->point, EML_MOST_VALUES);
}

/* eml_solve, with the answer in one place; so nothing is refused with 10. A list of bounds that is empty may be NULL. */
static inline uint8_t eml_solve_to(const uint8_t *nodes, size_t nodes_length, const uint8_t *constraints,
                                   size_t constraints_length, const double *lo, size_t lo_length, const double *hi,
                                   size_t hi_length, size_t limit, double tolerance, eml_settings settings,
                                   eml_solution *to) {
    const double none = 0.0; /* lent for an empty list, which is not read */
    lo = lo_length == 0 ? &none : lo;
    hi = hi_length == 0 ? &none : hi;
    return eml_solve(nodes, nodes_length, constraints, constraints_length, lo, lo_length, hi, hi_length, limit, tolerance,
                     settings, &to->stop, &to->exact, &to->residual, &to->halvings, &to->count, to->point, EML_MOST_VALUES);
}

/* ---- decisions */

/* What `verdict` is after a decision. EML_TRUE means that propagation of the negation met a conflict, no more. */
enum { EML_TRUE = 0, EML_TRUE_WITH_WITNESS = 1, EML_FALSE_WITH_COUNTEREXAMPLE = 2, EML_UNKNOWN = 3 };

/*
 * Whether the constraint holds for every value of variable `var` in [lo, hi]: EML_TRUE where propagation of its negation
 * meets a conflict, which is no proof; else by five samples, which have the other variables of `num_vars` at 0, in order: lo, hi,
 * the middle, and a tenth from either end. The first that does not pass eml_check under these settings is the counterexample,
 * in the first `count` places of `point`: it may be one at which an evaluation fails, as a strict one does beyond the clamp.
 * Refused with 14, with 9 for over 16 variables or an unsound range, and with 10 where `point` has fewer than `num_vars`
 * places.
 */
uint8_t eml_decide_forall(const uint8_t *nodes, size_t nodes_length, const uint8_t *constraints, size_t constraints_length,
                          size_t var, double lo, double hi, size_t num_vars, eml_settings settings, uint8_t *verdict,
                          size_t *count, double *point, size_t point_length);

/*
 * Whether it holds for some value, by five samples in order: the middle, lo, hi, and a quarter from either end. The first that
 * passes eml_check under these settings is the witness. Refused as eml_decide_forall is.
 */
uint8_t eml_decide_exists(const uint8_t *nodes, size_t nodes_length, const uint8_t *constraints, size_t constraints_length,
                          size_t var, double lo, double hi, size_t num_vars, eml_settings settings, uint8_t *verdict,
                          size_t *count, double *point, size_t point_length);

/* ---- narrowing */

/* An interval; its ends may be any double. */
typedef struct eml_interval {
    double lo;
    double hi;
} eml_interval;

/* What `answer` is after a propagation. */
enum { EML_PROP_CHANGED = 0, EML_PROP_STABLE = 1, EML_PROP_CONFLICT = 2 };

/*
 * Narrows boxes, one for each variable, given by their lower and upper ends; a variable beyond them is [-10,10]. What was
 * written before a conflict stays. Refused with 14, and with 9, also where the two lists differ in length.
 */
uint8_t eml_propagate(const uint8_t *nodes, size_t nodes_length, const uint8_t *constraints, size_t constraints_length,
                      eml_settings settings, double *lo, size_t lo_length, double *hi, size_t hi_length, uint8_t *answer);

/* The same on one list of intervals, which it alters. */
uint8_t eml_propagate_intervals(const uint8_t *nodes, size_t nodes_length, const uint8_t *constraints,
                                size_t constraints_length, eml_settings settings, eml_interval *boxes,
                                size_t boxes_length, uint8_t *answer);

/*
 * The first `num_vars` bounds, given by their lower and upper ends, with [-10,10] for a missing one, to the first places of
 * `out_lo` and `out_hi`. Refused with 9 for lists that differ in length, over 16 bounds, an unsound one, or over 16 variables,
 * and with 10 where `out_lo` or `out_hi` has fewer than `num_vars` places.
 */
uint8_t eml_domain_new(const double *lo, size_t lo_length, const double *hi, size_t hi_length, size_t num_vars,
                       double *out_lo, size_t out_lo_length, double *out_hi, size_t out_hi_length);

/*
 * Whether any of the intervals, given by their lower and upper ends, is empty, to `out`. The ends may be any double. Refused
 * with 9 for lists that differ in length, or over 16 intervals.
 */
uint8_t eml_domain_is_empty(const double *lo, size_t lo_length, const double *hi, size_t hi_length, bool *out);

/*
 * Writes the records of the normal form, 24 bytes each, to the front of `out` and their number to `records`. Refused with 10
 * where they do not fit.
 */
uint8_t eml_to_nnf(const uint8_t *nodes, size_t nodes_length, const uint8_t *constraints, size_t constraints_length,
                   uint8_t *out, size_t out_length, size_t *records);

/* ---- testing a point */

/* What `kind` is after an evaluation. */
enum {
    EML_EVAL_VALUE = 0,
    EML_EVAL_VAR_OUT_OF_BOUNDS = 1,
    EML_EVAL_NAN_ENCOUNTERED = 2,
    EML_EVAL_COMPLEX_RESULT = 3,
    /* An Eml node's left value has a real part beyond the clamp. Only strict evaluation answers this. */
    EML_EVAL_EXP_OVERFLOW = 4
};

/*
 * A node's value at a point, to `value`; a complex result has the magnitude of its imaginary part there, and an exp overflow
 * the real part that is beyond the clamp. A variable out of bounds has its number in `index` and the number of the point's
 * values in `count`. A place that the answer has nothing for stays. Of more errors than one it is the first in postorder; at
 * one node an exp overflow goes before a NaN, but a left real part that is a NaN is not beyond the clamp. Only the nodes are
 * tested, with 2 to 4; then 3 is for no such node, 14 for the settings, and 9 for a point of over 16 values.
 */
uint8_t eml_eval_real(const uint8_t *nodes, size_t nodes_length, size_t node, const double *point, size_t point_length,
                      eml_settings settings, uint8_t *kind, double *value, size_t *index, size_t *count);

/*
 * Whether a point passes the check, to `passes`. An atom does not pass where the evaluation of its node is an error. Refused
 * with 14, and with 9 for a point of over 16 values.
 */
uint8_t eml_check(const uint8_t *nodes, size_t nodes_length, const uint8_t *constraints, size_t constraints_length,
                  const double *point, size_t point_length, eml_settings settings, bool *passes);

/*
 * A point's residual, to `out`. Of an atom it is +inf where the evaluation of its node is an error, and 0 of EML_KIND_NE_ZERO.
 * Refused with 14, and with 9 for a point of over 16 values.
 */
uint8_t eml_residual(const uint8_t *nodes, size_t nodes_length, const uint8_t *constraints, size_t constraints_length,
                     const double *point, size_t point_length, eml_settings settings, double *out);

/* ---- an interval's methods, on its ends; they refuse nothing. An interval as the result is written to `low` and `high`. */

/* [lo, hi]. */
void eml_interval_new(double lo, double hi, double *low, double *high);

/* [v, v]. */
void eml_interval_point(double v, double *low, double *high);

/* Whether lo is above hi, or an end is a NaN. */
bool eml_interval_is_empty(double lo, double hi);

/* hi - lo. */
double eml_interval_width(double lo, double hi);

/* (lo + hi) / 2. */
double eml_interval_midpoint(double lo, double hi);

/* Whether x is between the ends. */
bool eml_interval_contains(double lo, double hi, double x);

/* The lower half is [low, middle], the upper one [middle, high]. */
void eml_interval_split(double lo, double hi, double *low, double *middle, double *high);

/* What [lo, hi] and [other, another] both have; empty where they lie apart. Of two lower ends that are -0 and +0 it takes +0, of two such
   upper ends -0. */
void eml_interval_intersect(double lo, double hi, double other, double another, double *low, double *high);

/* The smallest interval that has [lo, hi] and [other, another]. Of two lower ends that are -0 and +0 it takes -0, of two such upper ends
   +0. */
void eml_interval_hull(double lo, double hi, double other, double another, double *low, double *high);

/* exp of both ends. */
void eml_interval_exp(double lo, double hi, double *low, double *high);

/* ln of both ends; empty, [+inf, -inf], where lo is zero or below, or an end is not finite. */
void eml_interval_ln(double lo, double hi, double *low, double *high);

/* The arguments whose exp is in [lo, hi]: its ln. */
void eml_interval_exp_inv(double lo, double hi, double *low, double *high);

/* The arguments whose ln is in [lo, hi]: its exp. */
void eml_interval_ln_inv(double lo, double hi, double *low, double *high);

/* ---- the mathematics */

/* e to the power x. */
double eml_exp(double x);

/* The natural logarithm; NaN below zero. */
double eml_ln(double x);

/* The sine; NaN where |x| is over 2^20. */
double eml_sin(double x);

/* The cosine; NaN where |x| is over 2^20. */
double eml_cos(double x);

/* The arctangent, meant for 0 to 1. */
double eml_atan(double x);

/* exp of re + im i, to `real` and `imag`. */
void eml_complex_exp(double re, double im, double *real, double *imag);

/* ln of re + im i, to `real` and `imag`. */
void eml_complex_ln(double re, double im, double *real, double *imag);

/* ---- the operations on a double */

/* The larger, maximumNumber of IEEE 754-2019, clause 9.6: -0 is below +0, and a NaN yields the other operand. */
double eml_max(double a, double b);

/* The smaller, minimumNumber of the same clause: -0 is below +0, and a NaN yields the other operand. */
double eml_min(double a, double b);

/* The magnitude. */
double eml_abs(double x);

/* Whether the sign bit is set; false for a NaN. */
bool eml_sign_bit(double x);

/* The least double above x (IEEE 754-2019, clause 5.3.1). Of the negative number of least magnitude it is -0; +inf and a NaN stay. */
double eml_next_up(double x);

/* The greatest double below x (IEEE 754-2019, clause 5.3.1), which is -eml_next_up(-x). */
double eml_next_down(double x);

#ifdef __cplusplus
}
#endif

#endif
