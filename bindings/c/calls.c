/*
 * Every call of eml.h, with what it answers: a prototype that is not the library's would answer otherwise. The arguments are
 * examples/false_conflict.emlq and examples/clamped.emlq.
 */
#include "eml.h"

#include <float.h>
#include <math.h>
#include <stdio.h>
#include <string.h>

static int failures;

static void holds(bool condition, const char *text, int line) {
    if (!condition) {
        printf("line %d does not hold: %s\n", line, text);
        failures++;
    }
}

#define HOLDS(condition) holds(condition, #condition, __LINE__)
#define USUAL eml_usual_settings()

/* Whether two numbers are equal but for the last bits. */
static bool near(double a, double b) {
    return eml_abs(a - b) < 1e-14;
}

/* The file that was read last. */
static uint8_t file[EML_LONGEST_FILE];

/* Its length; 0 where it cannot be read. */
static size_t read_file(const char *path) {
    FILE *stream = fopen(path, "rb");
    if (stream == NULL) {
        perror(path);
        failures++;
        return 0;
    }
    const size_t length = fread(file, 1, sizeof file, stream);
    fclose(stream);
    return length;
}

/* Variable 0 is above 0.25, in [0.5,3.5]: a false conflict, and what a second look at it tells. */
static void files(const char *path) {
    const size_t length = read_file(path);
    if (length == 0) {
        return;
    }
    HOLDS(eml_read(file, length) == 0);
    uint64_t vars = 0;
    HOLDS(eml_num_vars(file, length, &vars) == 0 && vars == 1);
    eml_solution solution;
    HOLDS(eml_solve_file_to(file, length, 10000, 1e-8, USUAL, &solution) == 0 && solution.stop == EML_CONFLICT);
    HOLDS(!solution.exact && solution.residual > DBL_MAX && solution.halvings == 0 && solution.count == 0);

    eml_parts parts;
    HOLDS(eml_file_parts(file, EML_HEADER_BYTES - 1, &parts) == EML_REFUSED_HEADER);
    HOLDS(eml_file_parts(file, length, &parts) == 0);
    HOLDS(parts.nodes == file + EML_HEADER_BYTES && parts.nodes_length == (2 + EML_SUB_NODES) * EML_NODE_BYTES);
    HOLDS(parts.constraints == parts.nodes + parts.nodes_length && parts.constraints_length == EML_CONSTRAINT_BYTES);
    HOLDS(parts.bounds == 1 && parts.lo[0] == 0.5 && parts.hi[0] == 3.5);
    double lo[1], hi[1];
    HOLDS(eml_domain_new(parts.lo, parts.bounds, parts.hi, parts.bounds, 1, lo, 1, hi, 1) == 0);
    const double middle[] = {eml_interval_midpoint(lo[0], hi[0])};
    bool passes = false;
    HOLDS(eml_check(parts.nodes, parts.nodes_length, parts.constraints, parts.constraints_length, middle, 1, USUAL,
                    &passes) == 0);
    HOLDS(passes && middle[0] == 2.0);
}

/* Variable 1 is at least 0; node 2 is e - ln of it. */
static uint8_t nodes[3 * EML_NODE_BYTES], constraints[2 * EML_CONSTRAINT_BYTES];
#define RECORDS nodes, sizeof nodes, constraints, EML_CONSTRAINT_BYTES

static void write_records(void) {
    eml_write_var(nodes, 0, 1);
    eml_write_one(nodes, 1);
    eml_write_eml(nodes, 2, 1, 0);
    eml_write_atom(constraints, 0, EML_KIND_GE_ZERO, 0);
    eml_write_not(constraints, 1);
}

static void records(void) {
    HOLDS(eml_read_records(RECORDS) == 0);
    uint64_t vars = 0;
    HOLDS(eml_num_vars_records(RECORDS, &vars) == 0 && vars == 2);
    uint8_t quantified[2 * EML_CONSTRAINT_BYTES];
    memcpy(quantified, constraints, EML_CONSTRAINT_BYTES);
    eml_write_exists(quantified, 1, 15, 2.0, 2.0);
    HOLDS(eml_num_vars_records(nodes, sizeof nodes, quantified, sizeof quantified, &vars) == 0 && vars == 16);
}

static void solving(void) {
    const double lo[] = {-4.0, 1.0}, hi[] = {2.0, 3.0};
    eml_solution solution;
    HOLDS(eml_solve_to(RECORDS, lo, 2, hi, 2, 10000, 1e-8, USUAL, &solution) == 0 && solution.stop == EML_ASSIGNMENT);
    HOLDS(!solution.exact && solution.residual == 0.0 && solution.halvings == 0);
    HOLDS(solution.count == 2 && solution.point[0] == -1.0 && solution.point[1] == 2.0);
    HOLDS(eml_solve_to(RECORDS, hi, 2, hi, 2, 10000, 1e-8, USUAL, &solution) == 0 && solution.exact);
    HOLDS(eml_solve_to(RECORDS, NULL, 0, NULL, 0, 10000, 1e-8, USUAL, &solution) == 0 && solution.point[1] == 5.0);
    HOLDS(eml_solve_to(RECORDS, lo, 2, hi, 1, 10000, 1e-8, USUAL, &solution) == EML_REFUSED_BOXES);
    HOLDS(eml_solve_to(RECORDS, lo, 2, hi, 2, EML_MOST_LIMIT + 1, 1e-8, USUAL, &solution) == EML_REFUSED_LIMIT_OR_TOLERANCE);
}

typedef uint8_t decision(const uint8_t *, size_t, const uint8_t *, size_t, size_t, double, double, size_t, eml_settings,
                         uint8_t *, size_t *, double *, size_t);

static const struct {
    decision *call;
    double lo, hi;
    uint8_t verdict;
    double value; /* of variable 1, in the point */
} DECISIONS[] = {
    {eml_decide_forall, 1.0, 2.0, EML_TRUE, 0.0},
    {eml_decide_forall, -1.0, 2.0, EML_FALSE_WITH_COUNTEREXAMPLE, -1.0},
    {eml_decide_exists, -1.0, 2.0, EML_TRUE_WITH_WITNESS, 0.5},
    {eml_decide_exists, -2.0, -1.0, EML_UNKNOWN, 0.0},
};

static void deciding(void) {
    for (size_t i = 0; i < sizeof DECISIONS / sizeof *DECISIONS; i++) {
        uint8_t verdict = 0xAA;
        size_t count = 0;
        double point[] = {0.0, 0.0};
        HOLDS(DECISIONS[i].call(RECORDS, 1, DECISIONS[i].lo, DECISIONS[i].hi, 2, USUAL, &verdict, &count, point, 2) == 0);
        HOLDS(verdict == DECISIONS[i].verdict && point[0] == 0.0 && point[1] == DECISIONS[i].value);
        HOLDS(count == (DECISIONS[i].value == 0.0 ? 0u : 2u));
    }
}

static void narrowing(void) {
    double lo[] = {-2.0, -1.0}, hi[] = {3.0, 1.0};
    uint8_t answer = 0xAA;
    HOLDS(eml_propagate(RECORDS, USUAL, lo, 2, hi, 2, &answer) == 0 && answer == EML_PROP_CHANGED);
    HOLDS(lo[0] == -2.0 && hi[0] == 3.0 && lo[1] == 0.0 && hi[1] == 1.0);
    eml_interval boxes[] = {{-2.0, 3.0}, {0.0, 1.0}};
    HOLDS(eml_propagate_intervals(RECORDS, USUAL, boxes, 2, &answer) == 0 && answer == EML_PROP_STABLE);
    boxes[1].lo = -3.0;
    boxes[1].hi = -1.0;
    HOLDS(eml_propagate_intervals(RECORDS, USUAL, boxes, 2, &answer) == 0 && answer == EML_PROP_CONFLICT);

    double low[2], high[2];
    HOLDS(eml_domain_new(lo, 1, hi, 1, 2, low, 2, high, 2) == 0);
    HOLDS(low[0] == -2.0 && high[0] == 3.0 && low[1] == -10.0 && high[1] == 10.0);
    bool empty = true;
    HOLDS(eml_domain_is_empty(low, 2, high, 2, &empty) == 0 && !empty);
    HOLDS(eml_domain_is_empty(high, 2, low, 2, &empty) == 0 && empty);

    uint8_t normal[EML_CONSTRAINT_BYTES];
    size_t written = 0;
    HOLDS(eml_to_nnf(nodes, sizeof nodes, constraints, sizeof constraints, normal, sizeof normal, &written) == 0);
    HOLDS(written == 1 && normal[0] == EML_KIND_LT_ZERO);
}

static void points(void) {
    const double good[] = {0.0, 2.0}, bad[] = {0.0, -1.0};
    const double not_a_number[] = {0.0, eml_of_bits(0x7FF8000000000000)};
    uint8_t kind = 0xAA;
    double value = 0.0;
    size_t index = 9, count = 9;
    HOLDS(eml_eval_real(nodes, sizeof nodes, 0, good, 2, USUAL, &kind, &value, &index, &count) == 0);
    HOLDS(kind == EML_EVAL_VALUE && value == 2.0 && index == 9 && count == 9);
    HOLDS(eml_eval_real(nodes, sizeof nodes, 0, good, 0, USUAL, &kind, &value, &index, &count) == 0);
    HOLDS(kind == EML_EVAL_VAR_OUT_OF_BOUNDS && index == 1 && count == 0);
    HOLDS(eml_eval_real(nodes, sizeof nodes, 0, not_a_number, 2, USUAL, &kind, &value, &index, &count) == 0);
    HOLDS(kind == EML_EVAL_NAN_ENCOUNTERED);
    HOLDS(eml_eval_real(nodes, sizeof nodes, 2, bad, 2, USUAL, &kind, &value, &index, &count) == 0);
    HOLDS(kind == EML_EVAL_COMPLEX_RESULT && near(value, 3.141592653589793));

    bool passes = false;
    HOLDS(eml_check(RECORDS, good, 2, USUAL, &passes) == 0 && passes);
    HOLDS(eml_check(RECORDS, bad, 2, USUAL, &passes) == 0 && !passes);
    HOLDS(eml_residual(RECORDS, bad, 2, USUAL, &value) == 0 && value == 1.0);
}

/* Settings at the edges of their ranges, and past them. */
static const struct {
    eml_settings settings;
    uint8_t refusal;
} TESTED[] = {
    {{1, 1e-8, 1e-12, 1.0, false}, 0},
    {{100, DBL_MAX, DBL_TRUE_MIN, 709.0, false}, 0},
    {{20, 1e-8, 1e-8 - 1e-23, 708.5, false}, 0},
    {{0, 1e-8, 1e-12, 709.0, false}, EML_REFUSED_PARAMETER},
    {{101, 1e-8, 1e-12, 709.0, false}, EML_REFUSED_PARAMETER},
    {{SIZE_MAX, 1e-8, 1e-12, 709.0, false}, EML_REFUSED_PARAMETER},
    {{20, 1e-12, 1e-12, 709.0, false}, EML_REFUSED_PARAMETER},
    {{20, INFINITY, 1e-12, 709.0, false}, EML_REFUSED_PARAMETER},
    {{20, NAN, 1e-12, 709.0, false}, EML_REFUSED_PARAMETER},
    {{20, 1e-8, 0.0, 709.0, false}, EML_REFUSED_PARAMETER},
    {{20, 1e-8, -0.0, 709.0, false}, EML_REFUSED_PARAMETER},
    {{20, 1e-8, -1e-12, 709.0, false}, EML_REFUSED_PARAMETER},
    {{20, 1e-8, NAN, 709.0, false}, EML_REFUSED_PARAMETER},
    {{20, 1e-8, 1e-12, 1.0 - DBL_EPSILON / 2.0, false}, EML_REFUSED_PARAMETER},
    {{20, 1e-8, 1e-12, 709.0 * (1.0 + DBL_EPSILON), false}, EML_REFUSED_PARAMETER},
    {{20, 1e-8, 1e-12, NAN, false}, EML_REFUSED_PARAMETER},
};

static void settings(void) {
    const eml_settings usual = eml_usual_settings();
    HOLDS(usual.rounds == 20 && usual.equality == 1e-8 && usual.slack == 1e-12 && usual.clamp == 709.0 && !usual.strict);
    HOLDS(eml_test_settings(usual) == 0);
    for (size_t i = 0; i < sizeof TESTED / sizeof *TESTED; i++) {
        eml_settings tested = TESTED[i].settings;
        HOLDS(eml_test_settings(tested) == TESTED[i].refusal);
        tested.strict = true;
        HOLDS(eml_test_settings(tested) == TESTED[i].refusal);
    }
    /* The package's tests/settings.rs has the same numbers. */
    HOLDS(sizeof usual == 40 && offsetof(eml_settings, rounds) == 0 && offsetof(eml_settings, equality) == 8);
    HOLDS(offsetof(eml_settings, slack) == 16 && offsetof(eml_settings, clamp) == 24 && offsetof(eml_settings, strict) == 32);
}

/* Variable 0 is at least 0, in [-0.5,0.25]. */
static const uint8_t AT_LEAST[] = {
    'E', 'M', 'L', 'Q', 1, 0, 0,    0,    32, 0, 0, 0, 1, 0, 0,    0,    /* nodes from 32 on: 1 */
    48,  0,   0,   0,   1, 0, 0,    0,    72, 0, 0, 0, 1, 0, 0,    0,    /* constraints from 48 on: 1; bounds from 72 on: 1 */
    2,   0,   0,   0,   0, 0, 0,    0,    0,  0, 0, 0, 0, 0, 0,    0,    /* Var 0 */
    2,   0,   0,   0,   0, 0, 0,    0,    0,  0, 0, 0, 0, 0, 0,    0,    /* GeZero 0 */
    0,   0,   0,   0,   0, 0, 0,    0,                                   /* in no range */
    0,   0,   0,   0,   0, 0, 0xE0, 0xBF, 0,  0, 0, 0, 0, 0, 0xD0, 0x3F, /* [-0.5,0.25] */
};

/* Every call that gets settings answers by them. Each number changes an answer, so each field is where the library has it. */
static void other_settings(void) {
    /* An end is moved by more than 0.75 only, and a value of at least -0.75 passes. */
    eml_settings loose = eml_usual_settings();
    loose.equality = 1.0;
    loose.slack = 0.75;
    eml_solution solution;
    HOLDS(eml_solve_file_to(AT_LEAST, sizeof AT_LEAST, 10000, 1e-8, USUAL, &solution) == 0 && solution.point[0] == 0.125);
    HOLDS(eml_solve_file_to(AT_LEAST, sizeof AT_LEAST, 10000, 1e-8, loose, &solution) == 0 && solution.point[0] == -0.125);
    const double lo[] = {1.0, -0.5}, hi[] = {1.0, 0.25};
    HOLDS(eml_solve_to(RECORDS, lo, 2, hi, 2, 10000, 1e-8, USUAL, &solution) == 0 && solution.point[1] == 0.125);
    HOLDS(eml_solve_to(RECORDS, lo, 2, hi, 2, 10000, 1e-8, loose, &solution) == 0 && solution.point[1] == -0.125);
    uint8_t verdict = 0xAA, answer = 0xAA, kind = 0xAA;
    size_t index, count = 0;
    double point[] = {9.0, 9.0};
    HOLDS(eml_decide_forall(RECORDS, 1, -0.5, 2.0, 2, loose, &verdict, &count, point, 2) == 0 && verdict == EML_UNKNOWN);
    HOLDS(eml_decide_exists(RECORDS, 1, -1.0, -0.5, 2, loose, &verdict, &count, point, 2) == 0);
    HOLDS(verdict == EML_TRUE_WITH_WITNESS && count == 2 && point[1] == -0.75);
    eml_interval boxes[] = {{1.0, 1.0}, {-0.5, 0.25}};
    HOLDS(eml_propagate_intervals(RECORDS, loose, boxes, 2, &answer) == 0 && answer == EML_PROP_STABLE);
    HOLDS(eml_propagate_intervals(RECORDS, USUAL, boxes, 2, &answer) == 0 && answer == EML_PROP_CHANGED);

    /* exp(v0) = ln(v1), and v0 is at least 0: what the second tells of v1 comes with the next round. */
    uint8_t both[3 * EML_NODE_BYTES], equal[3 * EML_CONSTRAINT_BYTES];
    eml_write_var(both, 0, 0);
    eml_write_var(both, 1, 1);
    eml_write_eml(both, 2, 0, 1);
    eml_write_atom(equal, 0, EML_KIND_EQ_ZERO, 2);
    eml_write_atom(equal, 1, EML_KIND_GE_ZERO, 0);
    eml_write_and(equal, 2, 2);
    eml_settings once = eml_usual_settings();
    once.rounds = 1;
    double low[] = {-1.0, 1.0}, high[] = {1.0, 16.0};
    HOLDS(eml_propagate(both, sizeof both, equal, sizeof equal, once, low, 2, high, 2, &answer) == 0);
    HOLDS(answer == EML_PROP_CHANGED && low[0] == 0.0 && near(low[1], 1.444667861009766));
    HOLDS(eml_propagate(both, sizeof both, equal, sizeof equal, once, low, 2, high, 2, &answer) == 0);
    HOLDS(answer == EML_PROP_CHANGED && near(low[1], 2.718281828459045));

    /* exp(0.5) is ln(5) to a tenth; and exp(3) is exp(1.5) under the clamp. */
    const double half[] = {0.5, 5.0}, three[] = {3.0, 1.0};
    bool passes = true;
    eml_settings tenth = eml_usual_settings(), clamped = eml_usual_settings();
    HOLDS(eml_check(both, sizeof both, equal, EML_CONSTRAINT_BYTES, half, 2, tenth, &passes) == 0 && !passes);
    tenth.equality = 0.1;
    HOLDS(eml_check(both, sizeof both, equal, EML_CONSTRAINT_BYTES, half, 2, tenth, &passes) == 0 && passes);
    double value = 0.0;
    clamped.clamp = 1.5;
    HOLDS(eml_eval_real(both, sizeof both, 2, three, 2, clamped, &kind, &value, &index, &count) == 0);
    HOLDS(kind == EML_EVAL_VALUE && near(value, 4.4816890703380645));
    HOLDS(eml_residual(both, sizeof both, equal, EML_CONSTRAINT_BYTES, three, 2, clamped, &value) == 0);
    HOLDS(near(value, 4.4816890703380645));
}

/* What a strict evaluation of node 3, exp(v1), answers at the edges of document 01's clamp. */
static void strict_evaluations(const eml_parts *parts, eml_settings strict) {
    const double above = eml_next_up(709.0);
    const struct {
        double x;
        uint8_t kind;
    } edges[] = {
        {709.0, EML_EVAL_VALUE},
        {above, EML_EVAL_EXP_OVERFLOW},
        {1418.0, EML_EVAL_EXP_OVERFLOW},
        {INFINITY, EML_EVAL_EXP_OVERFLOW},
        {-709.0, EML_EVAL_VALUE},
        {-above, EML_EVAL_EXP_OVERFLOW},
        {-INFINITY, EML_EVAL_EXP_OVERFLOW},
        {NAN, EML_EVAL_NAN_ENCOUNTERED},
    };
    for (size_t i = 0; i < sizeof edges / sizeof *edges; i++) {
        const double point[] = {0.0, edges[i].x}, x = edges[i].x;
        uint8_t kind = 0xAA;
        double value = 9.0;
        size_t index = 9, count = 9;
        HOLDS(eml_eval_real(parts->nodes, parts->nodes_length, 3, point, 2, strict, &kind, &value, &index, &count) == 0);
        HOLDS(kind == edges[i].kind && index == 9 && count == 9);
        HOLDS(value == (kind == EML_EVAL_VALUE ? eml_exp(x) : kind == EML_EVAL_EXP_OVERFLOW ? x : 9.0));
        HOLDS(eml_eval_real(parts->nodes, parts->nodes_length, 3, point, 2, USUAL, &kind, &value, &index, &count) == 0);
        HOLDS(kind == (isnan(x) ? EML_EVAL_NAN_ENCOUNTERED : EML_EVAL_VALUE));
    }
}

#define PARTS parts.nodes, parts.nodes_length, parts.constraints, parts.constraints_length

/*
 * exp(v0) is above ln(exp(v1)), v0 in [6.5,6.63], v1 in [600,1000]: each call that gets settings, without the flag and with it. Where
 * v1 is beyond the clamp, exp(v1) is clamped or an error.
 */
static void strict_settings(const char *path) {
    const size_t length = read_file(path);
    if (length == 0) {
        return;
    }
    eml_parts parts;
    HOLDS(eml_file_parts(file, length, &parts) == 0);
    const int two = 2;
    eml_settings strict = eml_usual_settings();
    strict.strict = two; /* as true: a bool of C is so for every value that is not 0 */
    HOLDS(strict.strict == true && eml_test_settings(strict) == 0);
    strict_evaluations(&parts, strict);

    const double clamped[] = {6.6, 800.0};
    bool passes = false;
    double value = 9.0;
    HOLDS(eml_check(PARTS, clamped, 2, USUAL, &passes) == 0 && passes);
    HOLDS(eml_check(PARTS, clamped, 2, strict, &passes) == 0 && !passes);
    HOLDS(eml_residual(PARTS, clamped, 2, USUAL, &value) == 0 && value == 0.0);
    HOLDS(eml_residual(PARTS, clamped, 2, strict, &value) == 0 && value == INFINITY);

    eml_solution solution;
    HOLDS(eml_solve_file_to(file, length, 10000, 1e-8, USUAL, &solution) == 0 && solution.stop == EML_ASSIGNMENT);
    HOLDS(solution.halvings == 0 && solution.point[1] == 800.0);
    HOLDS(eml_solve_file_to(file, length, 10000, 1e-8, strict, &solution) == 0 && solution.stop == EML_ASSIGNMENT);
    HOLDS(solution.halvings == 1 && solution.point[1] == 700.0);
    HOLDS(eml_solve_to(PARTS, parts.lo, 2, parts.hi, 2, 10000, 1e-8, USUAL, &solution) == 0 && solution.point[1] == 800.0);
    HOLDS(eml_solve_to(PARTS, parts.lo, 2, parts.hi, 2, 10000, 1e-8, strict, &solution) == 0 && solution.point[1] == 700.0);

    /* Decisions, with v0 at 0. */
    uint8_t verdict = 0xAA, answer = 0xAA;
    size_t count = 9;
    double found[] = {9.0, 9.0};
    HOLDS(eml_decide_forall(PARTS, 1, -900.0, -800.0, 2, USUAL, &verdict, &count, found, 2) == 0 && verdict == EML_UNKNOWN);
    HOLDS(eml_decide_forall(PARTS, 1, -900.0, -800.0, 2, strict, &verdict, &count, found, 2) == 0);
    HOLDS(verdict == EML_FALSE_WITH_COUNTEREXAMPLE && count == 2 && found[1] == -900.0);
    HOLDS(eml_decide_exists(PARTS, 1, -900.0, -800.0, 2, USUAL, &verdict, &count, found, 2) == 0);
    HOLDS(verdict == EML_TRUE_WITH_WITNESS && count == 2 && found[1] == -850.0);
    HOLDS(eml_decide_exists(PARTS, 1, -900.0, -800.0, 2, strict, &verdict, &count, found, 2) == 0 && verdict == EML_UNKNOWN);

    /* Narrowing is the same: exp of an interval is not clamped. */
    const eml_settings either[] = {USUAL, strict};
    for (int i = 0; i < 2; i++) {
        double lo[] = {6.0, 600.0}, hi[] = {6.5, 700.0};
        HOLDS(eml_propagate(PARTS, either[i], lo, 2, hi, 2, &answer) == 0 && answer == EML_PROP_CHANGED);
        HOLDS(near(lo[0], 6.396929655216146) && lo[1] == 600.0 && hi[0] == 6.5 && eml_abs(hi[1] - 665.1416330443618) < 1e-12);
        eml_interval boxes[] = {{parts.lo[0], parts.hi[0]}, {parts.lo[1], parts.hi[1]}};
        HOLDS(eml_propagate_intervals(PARTS, either[i], boxes, 2, &answer) == 0 && answer == EML_PROP_STABLE);
    }
}

/* The refusals of a call in their order: of the file or the records, of the settings, and of what else it is given. */
static const uint8_t LIMITS[] = {EML_REFUSED_LAYOUT, EML_REFUSED_PARAMETER, EML_REFUSED_LIMIT_OR_TOLERANCE};
static const uint8_t BOXES[] = {EML_REFUSED_LAYOUT, EML_REFUSED_PARAMETER, EML_REFUSED_BOXES};

/* The records that it is given, whose length is wrong at first, and the places for a solution, with none for the point. */
#define GIVEN nodes, length, constraints, EML_CONSTRAINT_BYTES
#define SOLUTION &byte, &flag, &value, &index, &count, point, 0

static void refused_settings(void) {
    eml_settings refused = eml_usual_settings();
    refused.rounds = 0;
    const double many[EML_MOST_VALUES + 1] = {0.0};
    double lo[] = {0.0, 2.0}, hi[] = {0.0, 1.0}, point[] = {9.0, 9.0}, value = 9.0;
    eml_interval boxes[] = {{0.0, 0.0}, {2.0, 1.0}};
    uint8_t byte = 0xAA;
    bool flag = true;
    size_t index = 9, count = 9;
    for (int i = 0; i < 3; i++) {
        const size_t length = sizeof nodes - (i == 0), file_length = sizeof AT_LEAST - (i == 0);
        const eml_settings given = i < 2 ? refused : eml_usual_settings();
        HOLDS(eml_solve_file(AT_LEAST, file_length, 0, NAN, given, SOLUTION) == LIMITS[i]);
        HOLDS(eml_solve(GIVEN, lo, 2, hi, 2, 0, NAN, given, SOLUTION) == LIMITS[i]);
        HOLDS(eml_decide_forall(GIVEN, 1, 2.0, 1.0, 2, given, &byte, &count, point, 0) == BOXES[i]);
        HOLDS(eml_decide_exists(GIVEN, 1, 2.0, 1.0, 2, given, &byte, &count, point, 0) == BOXES[i]);
        HOLDS(eml_propagate(GIVEN, given, lo, 2, hi, 2, &byte) == BOXES[i]);
        HOLDS(eml_propagate_intervals(GIVEN, given, boxes, 2, &byte) == BOXES[i]);
        HOLDS(eml_check(GIVEN, many, 17, given, &flag) == BOXES[i]);
        HOLDS(eml_residual(GIVEN, many, 17, given, &value) == BOXES[i]);
        HOLDS(eml_eval_real(nodes, length, 0, many, 17, given, &byte, &value, &index, &count) == BOXES[i]);
    }
    HOLDS(eml_eval_real(nodes, sizeof nodes, 3, many, 17, refused, &byte, &value, &index, &count) == EML_REFUSED_NODE);
    HOLDS(byte == 0xAA && flag && value == 9.0 && index == 9 && count == 9 && point[0] == 9.0);
    HOLDS(lo[1] == 2.0 && hi[1] == 1.0 && boxes[1].lo == 2.0 && boxes[1].hi == 1.0);

    /* Where only the settings are wrong, no call narrows or answers either. */
    double low[] = {0.0, -1.0}, high[] = {0.0, 1.0};
    eml_interval around[] = {{0.0, 0.0}, {-1.0, 1.0}};
    eml_solution solution = {0xAA, true, 9.0, 9, 9, {9.0}};
    HOLDS(eml_propagate(RECORDS, refused, low, 2, high, 2, &byte) == EML_REFUSED_PARAMETER);
    HOLDS(eml_propagate_intervals(RECORDS, refused, around, 2, &byte) == EML_REFUSED_PARAMETER);
    HOLDS(eml_check(RECORDS, low, 2, refused, &flag) == EML_REFUSED_PARAMETER);
    HOLDS(eml_residual(RECORDS, low, 2, refused, &value) == EML_REFUSED_PARAMETER);
    HOLDS(eml_eval_real(nodes, sizeof nodes, 0, low, 2, refused, &byte, &value, &index, &count) == EML_REFUSED_PARAMETER);
    HOLDS(eml_decide_forall(RECORDS, 1, -1.0, 1.0, 2, refused, &byte, &count, point, 2) == EML_REFUSED_PARAMETER);
    HOLDS(eml_decide_exists(RECORDS, 1, -1.0, 1.0, 2, refused, &byte, &count, point, 2) == EML_REFUSED_PARAMETER);
    HOLDS(eml_solve_to(RECORDS, low, 2, high, 2, 100, 0.1, refused, &solution) == EML_REFUSED_PARAMETER);
    HOLDS(eml_solve_file_to(AT_LEAST, sizeof AT_LEAST, 100, 0.1, refused, &solution) == EML_REFUSED_PARAMETER);
    HOLDS(byte == 0xAA && flag && value == 9.0 && index == 9 && count == 9 && point[0] == 9.0);
    HOLDS(low[1] == -1.0 && high[1] == 1.0 && around[1].lo == -1.0 && around[1].hi == 1.0);
    HOLDS(solution.stop == 0xAA && solution.exact && solution.residual == 9.0 && solution.halvings == 9);
    HOLDS(solution.count == 9 && solution.point[0] == 9.0);
}

typedef uint8_t comparison(uint8_t *, size_t, size_t, size_t, size_t, uint8_t *, size_t);

static const struct {
    comparison *call;
    uint8_t kind;
} COMPARISONS[] = {
    {eml_lt, EML_KIND_LT_ZERO},
    {eml_le, EML_KIND_LE_ZERO},
    {eml_gt, EML_KIND_GT_ZERO},
    {eml_ge, EML_KIND_GE_ZERO},
};

/* The value of a node where variable 0 is 3. */
static double value_at_3(const uint8_t *list, size_t length, size_t node) {
    const double point[] = {3.0};
    uint8_t kind = 0xAA;
    double value = 0.0;
    size_t index, count;
    HOLDS(eml_eval_real(list, length, node, point, 1, USUAL, &kind, &value, &index, &count) == 0 && kind == EML_EVAL_VALUE);
    return value;
}

static void building(void) {
    uint8_t list[(2 + EML_LN_NODES + EML_SUB_NODES) * EML_NODE_BYTES];
    eml_write_var(list, 0, 0);
    eml_write_const(list, 1, 2.0);
    HOLDS(eml_canonical_ln(list, sizeof list, 2, 0) == 0);
    HOLDS(near(value_at_3(list, (2 + EML_LN_NODES) * EML_NODE_BYTES, 5), 1.0986122886681098));
    HOLDS(eml_canonical_sub(list, sizeof list, 6, 0, 1) == 0);
    HOLDS(near(value_at_3(list, sizeof list, 12), 1.0));
    for (size_t i = 0; i < sizeof COMPARISONS / sizeof *COMPARISONS; i++) {
        uint8_t written[EML_CONSTRAINT_BYTES], atom[EML_CONSTRAINT_BYTES];
        eml_write_atom(atom, 0, COMPARISONS[i].kind, 8);
        HOLDS(COMPARISONS[i].call(list, sizeof list, 2, 0, 1, written, sizeof written) == 0);
        HOLDS(memcmp(written, atom, sizeof atom) == 0);
        HOLDS(near(value_at_3(list, (2 + EML_SUB_NODES) * EML_NODE_BYTES, 8), 1.0));
    }
}

/* What functions of one number, of two, and of two to two answer, but for the last bits. */
static const struct {
    double (*call)(double);
    double x, value;
} OF_ONE[] = {
    {eml_exp, 1.0, 2.718281828459045},
    {eml_ln, 2.0, 0.6931471805599453},
    {eml_sin, 0.5, 0.479425538604203},
    {eml_cos, 0.5, 0.8775825618903728},
    {eml_atan, 0.5, 0.4636476090008061},
    {eml_abs, -2.0, 2.0},
};

static const struct {
    double (*call)(double, double);
    double x, y, value;
} OF_TWO[] = {
    {eml_max, 1.0, 2.0, 2.0},
    {eml_min, 1.0, 2.0, 1.0},
    {eml_interval_width, 1.0, 4.0, 3.0},
    {eml_interval_midpoint, 1.0, 4.0, 2.5},
};

static const struct {
    void (*call)(double, double, double *, double *);
    double x, y, first, second;
} TO_TWO[] = {
    {eml_interval_new, 1.0, 2.0, 1.0, 2.0},
    {eml_interval_exp, 0.0, 1.0, 1.0, 2.718281828459045},
    {eml_interval_ln, 1.0, 2.0, 0.0, 0.6931471805599453},
    {eml_interval_exp_inv, 1.0, 2.0, 0.0, 0.6931471805599453},
    {eml_interval_ln_inv, 0.0, 1.0, 1.0, 2.718281828459045},
    {eml_complex_exp, 0.0, 1.0, 0.5403023058681398, 0.8414709848078965},
    {eml_complex_ln, 0.0, 2.0, 0.6931471805599453, 1.5707963267948966},
};

static void numbers(void) {
    for (size_t i = 0; i < sizeof OF_ONE / sizeof *OF_ONE; i++) {
        HOLDS(near(OF_ONE[i].call(OF_ONE[i].x), OF_ONE[i].value));
    }
    for (size_t i = 0; i < sizeof OF_TWO / sizeof *OF_TWO; i++) {
        HOLDS(near(OF_TWO[i].call(OF_TWO[i].x, OF_TWO[i].y), OF_TWO[i].value));
    }
    for (size_t i = 0; i < sizeof TO_TWO / sizeof *TO_TWO; i++) {
        double first = 9.0, second = 9.0;
        TO_TWO[i].call(TO_TWO[i].x, TO_TWO[i].y, &first, &second);
        HOLDS(near(first, TO_TWO[i].first) && near(second, TO_TWO[i].second));
    }
    HOLDS(eml_next_up(1.0) == 1.0 + DBL_EPSILON && eml_next_down(1.0) == 1.0 - DBL_EPSILON / 2.0);
    HOLDS(eml_next_up(-0.0) == DBL_TRUE_MIN && eml_next_down(0.0) == -DBL_TRUE_MIN);
    HOLDS(eml_bits_of(eml_next_up(-DBL_TRUE_MIN)) == eml_bits_of(-0.0) && eml_bits_of(eml_next_down(DBL_TRUE_MIN)) == eml_bits_of(0.0));
    HOLDS(eml_sign_bit(-0.0) && !eml_sign_bit(0.0));
    HOLDS(!eml_sign_bit(eml_max(-0.0, 0.0)) && !eml_sign_bit(eml_max(0.0, -0.0)) && eml_sign_bit(eml_max(-0.0, -0.0)));
    HOLDS(eml_sign_bit(eml_min(-0.0, 0.0)) && eml_sign_bit(eml_min(0.0, -0.0)) && !eml_sign_bit(eml_min(0.0, 0.0)));
    HOLDS(eml_of_bits(0x4008000000000000) == 3.0 && eml_bits_of(3.0) == 0x4008000000000000);
}

static void intervals(void) {
    double low = 9.0, middle = 9.0, high = 9.0;
    eml_interval_point(3.0, &low, &high);
    HOLDS(low == 3.0 && high == 3.0);
    eml_interval_split(1.0, 4.0, &low, &middle, &high);
    HOLDS(low == 1.0 && middle == 2.5 && high == 4.0);
    eml_interval_intersect(1.0, 4.0, 2.0, 5.0, &low, &high);
    HOLDS(low == 2.0 && high == 4.0);
    eml_interval_hull(1.0, 2.0, 4.0, 5.0, &low, &high);
    HOLDS(low == 1.0 && high == 5.0);
    eml_interval_intersect(-0.0, 1.0, 0.0, 0.0, &low, &high);
    HOLDS(low == 0.0 && !eml_sign_bit(low) && high == 0.0);
    HOLDS(eml_interval_is_empty(2.0, 1.0) && !eml_interval_is_empty(1.0, 2.0));
    HOLDS(eml_interval_contains(1.0, 4.0, 4.0) && !eml_interval_contains(1.0, 4.0, 5.0));
}

int main(int argc, char **argv) {
    if (argc != 3) {
        fprintf(stderr, "usage: %s FALSE_CONFLICT CLAMPED\n", argv[0]);
        return 2;
    }
    files(argv[1]);
    write_records();
    records();
    solving();
    deciding();
    narrowing();
    points();
    settings();
    other_settings();
    strict_settings(argv[2]);
    refused_settings();
    building();
    numbers();
    intervals();
    return failures == 0 ? 0 : 1;
}
