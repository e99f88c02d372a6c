/* Plans as text, PDDL and the report in C, written from documents 01 and 02 for speed, to measure the library beside and to hold
 * it to when it is fuzzed. The answers are those of include/route_rules.h.
 *
 * A text is gone through once. What may still be refused is made on the stack, and copied where it fits. */
#include "plain.h"

#include <string.h>

static uint32_t refuse(uint32_t number, uint64_t place, uint64_t answer[8])
{
    memset(answer, 0, 64);
    answer[0] = place;
    return number;
}

static uint32_t answer_length(uint64_t length, uint64_t answer[8])
{
    memset(answer, 0, 64);
    answer[1] = length;
    return 0;
}

/* ---- pieces of text; each answers where it ends */

#define PUT(at, text) put(at, text, sizeof(text) - 1)

static inline uint8_t *put(uint8_t *at, const char *text, size_t length)
{
    memcpy(at, text, length);
    return at + length;
}

static uint8_t *put_large(uint8_t *at, uint64_t n)
{
    uint8_t digits[20];
    int first = 20;
    do {
        digits[--first] = '0' + n % 10;
        n /= 10;
    } while (n > 0);
    memcpy(at, digits + first, 20 - first);
    return at + 20 - first;
}

static inline uint8_t *put_number(uint8_t *at, uint64_t n)
{
    if (n >= 1000) return put_large(at, n);
    uint32_t small = n;
    if (small >= 100) *at++ = '0' + small / 100;
    if (small >= 10) *at++ = '0' + small / 10 % 10;
    *at++ = '0' + small % 10;
    return at;
}

/* ---- plans as text */

/* A plan read from a text: the first steps up to the limit, and how many there are. */
typedef struct { uint8_t plan[ROUTE_RULES_MAX_STEPS]; size_t steps; } Read;

/* What comes after the step line from `at` on, or NULL where it has another form. A step over 255 is 255. */
static inline const uint8_t *step_line(const uint8_t *at, const uint8_t *end, uint32_t *step)
{
    uint32_t n = 0;
    if (end - at < 5 || at[0] != '(' || at[1] != 'a') return NULL;
    at += 2;
    if (*at == '0')
        at++;
    else {
        const uint8_t *first = at;
        for (; at < end && *at >= '0' && *at <= '9'; at++) {
            n = 10 * n + (*at - '0');
            if (n > 255) n = 255;
        }
        if (at == first) return NULL;
    }
    *step = n;
    return end - at >= 2 && at[0] == ')' && at[1] == '\n' ? at + 2 : NULL;
}

static inline const uint8_t *comment_line(const uint8_t *at, const uint8_t *end)
{
    const uint8_t *newline = memchr(at, '\n', end - at);
    return newline ? newline + 1 : NULL;
}

/* 0, or the refusal with its place. */
static uint32_t read_text(const uint8_t *text, size_t length, Read *r, uint64_t *place)
{
    const uint8_t *at = text, *end = text + length;
    size_t steps = 0;
    *place = 0;
    if (length > ROUTE_RULES_MAX_TEXT) return ROUTE_RULES_REFUSED_TEXT;
    for (uint64_t line = 0; at < end; line++) {
        uint32_t step = 0;
        int comment = *at == ';';
        at = comment ? comment_line(at, end) : step_line(at, end, &step);
        if (at == NULL) {
            *place = line;
            return ROUTE_RULES_REFUSED_TEXT;
        }
        if (comment) continue;
        if (steps < ROUTE_RULES_MAX_STEPS) r->plan[steps] = step;
        steps++;
    }
    r->steps = steps;
    return steps > ROUTE_RULES_MAX_STEPS ? ROUTE_RULES_REFUSED_LONG_PLAN : 0;
}

uint32_t plain_read_plan(const uint8_t *text, size_t length, uint8_t *out, size_t room, uint64_t answer[8])
{
    Read r;
    uint64_t place;
    uint32_t number = read_text(text, length, &r, &place);
    if (number != 0) return refuse(number, place, answer);
    if (r.steps > room) return refuse(ROUTE_RULES_REFUSED_SHORT_OUTPUT, 0, answer);
    memcpy(out, r.plan, r.steps);
    return answer_length(r.steps, answer);
}

uint32_t plain_write_plan(const uint8_t *plan, size_t steps, uint8_t *out, size_t room, uint64_t answer[8])
{
    size_t length = 5 * steps;
    if (steps > ROUTE_RULES_MAX_STEPS) return refuse(ROUTE_RULES_REFUSED_LONG_PLAN, 0, answer);
    for (size_t i = 0; i < steps; i++) length += (plan[i] >= 10) + (plan[i] >= 100);
    if (length > room) return refuse(ROUTE_RULES_REFUSED_SHORT_OUTPUT, 0, answer);
    for (size_t i = 0; i < steps; i++) {
        out = put_number(PUT(out, "(a"), plan[i]);
        out = PUT(out, ")\n");
    }
    return answer_length(length, answer);
}

/* The file's refusals come before the text's. */
uint32_t plain_walk_text(const uint8_t *file, size_t length, const uint8_t *text, size_t text_length, uint64_t answer[8])
{
    Read r;
    uint64_t place;
    uint32_t number = read_text(text, text_length, &r, &place);
    if (number == 0) return plain_walk(file, length, r.plan, r.steps, answer);
    uint32_t of_file = plain_check(file, length, answer);
    return of_file != 0 ? of_file : refuse(number, place, answer);
}

/* ---- PDDL */

typedef struct { const uint8_t *marks, *values; uint32_t rows, at; } Rows;

static inline int next_is(const Rows *r, uint8_t mark) { return r->at < r->rows && r->marks[r->at] == mark; }

static inline int next_literal(const Rows *r) { return next_is(r, HOLDS) || next_is(r, LACKS); }

static inline uint32_t value_at(const Rows *r, uint32_t i)
{
    uint32_t v;
    memcpy(&v, r->values + 4 * (size_t)i, 4);
    return v;
}

static inline uint32_t take(Rows *r) { return value_at(r, r->at++); }

static inline uint8_t *put_fact(uint8_t *at, uint32_t fact)
{
    at = put_number(PUT(at, "(f"), fact);
    return PUT(at, ")");
}

static inline uint8_t *put_denied(uint8_t *at, uint32_t fact)
{
    at = put_fact(PUT(at, "(not "), fact);
    return PUT(at, ")");
}

static inline uint8_t *put_literal(uint8_t *at, Rows *r)
{
    int held = next_is(r, HOLDS);
    uint32_t fact = take(r);
    return held ? put_fact(at, fact) : put_denied(at, fact);
}

/* One literal stands without `or`. */
static uint8_t *put_clause(uint8_t *at, Rows *r)
{
    Rows second = *r;
    second.at++;
    if (!next_literal(&second)) return put_literal(at, r);
    at = PUT(at, "(or");
    while (next_literal(r)) at = put_literal(PUT(at, " "), r);
    return PUT(at, ")");
}

static uint8_t *put_condition(uint8_t *at, Rows *r)
{
    at = PUT(at, "(and");
    while (next_is(r, CLAUSE)) {
        r->at++;
        at = put_clause(PUT(at, " "), r);
    }
    return PUT(at, ")");
}

static uint8_t *put_effect(uint8_t *at, Rows *r)
{
    r->at++;
    at = put_condition(PUT(at, " (when "), r);
    at = PUT(at, " (and");
    while (next_is(r, ADD)) at = put_fact(PUT(at, " "), take(r));
    while (next_is(r, DELETE)) at = put_denied(PUT(at, " "), take(r));
    return PUT(at, "))");
}

static uint8_t *put_action(uint8_t *at, Rows *r, uint32_t number)
{
    uint32_t cost = take(r);
    at = put_number(PUT(at, "(:action a"), number);
    at = put_condition(PUT(at, " :parameters () :precondition "), r);
    at = put_number(PUT(at, " :effect (and (increase (total-cost) "), cost);
    at = PUT(at, ")");
    while (next_is(r, EFFECT)) at = put_effect(at, r);
    return PUT(at, "))\n");
}

static uint8_t *put_problem(uint8_t *at, Rows *r)
{
    at = PUT(at, "(define (problem p) (:domain d)\n(:init (= (total-cost) 0)");
    while (next_is(r, START)) at = put_fact(PUT(at, " "), take(r));
    r->at++;
    at = put_condition(PUT(at, ")\n(:goal "), r);
    return PUT(at, ")\n(:metric minimize (total-cost)))\n");
}

static uint8_t *put_domain(uint8_t *at, Rows *r, uint32_t facts)
{
    at = PUT(at, "(define (domain d)\n(:requirements :negative-preconditions :disjunctive-preconditions"
                 " :conditional-effects :action-costs)\n(:predicates");
    for (uint32_t fact = 0; fact < facts; fact++) at = put_fact(PUT(at, " "), fact);
    at = PUT(at, ")\n(:functions (total-cost))\n");
    for (uint32_t k = 0; next_is(r, ACTION); k++) at = put_action(at, r, k);
    return PUT(at, ")\n");
}

/* The rows of the problem come before those of the domain. */
uint32_t plain_pddl(const uint8_t *file, size_t length, uint8_t *domain, size_t domain_room, uint8_t *problem,
                    size_t problem_room, uint64_t answer[8])
{
    uint8_t domain_text[ROUTE_RULES_MAX_PDDL], problem_text[ROUTE_RULES_MAX_PDDL];
    uint32_t number = plain_check(file, length, answer), rows = answer[4];
    if (number != 0) return number;
    if (answer[3] != 0) return refuse(ROUTE_RULES_REFUSED_PREFERENCES, 0, answer);
    Rows r = {file + 8, file + 8 + rows, rows, 0};
    size_t problem_length = put_problem(problem_text, &r) - problem_text;
    size_t domain_length = put_domain(domain_text, &r, answer[1]) - domain_text;
    if (domain_length > domain_room || problem_length > problem_room) return refuse(ROUTE_RULES_REFUSED_SHORT_AREA, 0, answer);
    memcpy(domain, domain_text, domain_length);
    memcpy(problem, problem_text, problem_length);
    memset(answer, 0, 64);
    answer[1] = domain_length;
    answer[2] = problem_length;
    return 0;
}

/* ---- the report */

#define NAME(kind) {kind, sizeof(kind) - 1}

/* By the marks of the soft kinds, from ALWAYS on; SECOND is none. */
static const struct { const char *name; size_t length; } KIND[] = {
    NAME("always"), NAME("sometime"), NAME("at-end"), NAME("at-most-once"), NAME("sometime-before"), NAME("sometime-after"),
    {"", 0}, NAME("within"), NAME("always-within")};

static inline int opens_soft(uint8_t mark) { return mark >= ALWAYS && mark <= ALWAYS_WITHIN && mark != SECOND; }

static uint8_t *put_preference(uint8_t *at, uint32_t k, uint8_t mark, uint64_t weight, int met)
{
    int hard = !opens_soft(mark);
    uint32_t kind = mark - (hard ? HARD : 0) - ALWAYS;
    at = PUT(put_number(at, k), " ");
    if (hard) at = PUT(at, "hard-");
    at = put(at, KIND[kind].name, KIND[kind].length);
    at = put_number(PUT(at, " "), weight);
    return met ? PUT(at, " met\n") : PUT(at, " missed\n");
}

static uint8_t *put_worth(uint8_t *at, uint64_t cost, uint64_t gained, uint64_t lost)
{
    at = put_number(PUT(at, "metric "), cost + lost);
    at = PUT(at, " utility ");
    if (gained < cost) at = PUT(at, "-");
    at = put_number(at, gained < cost ? cost - gained : gained - cost);
    return PUT(at, "\n");
}

static uint8_t *put_solved(uint8_t *at, const uint8_t *file, size_t steps, uint64_t cost, uint64_t met)
{
    uint32_t rows = file[6] | file[7] << 8, k = 0;
    Rows r = {file + 8, file + 8 + rows, rows, 0};
    uint64_t sum[2] = {0, 0}; /* lost, gained */
    at = put_number(PUT(at, "solved steps "), steps);
    at = put_number(PUT(at, " cost "), cost);
    at = PUT(at, "\n");
    for (uint32_t i = 0; i < rows; i++) {
        uint8_t mark = r.marks[i];
        if (!opens_soft(mark) && mark < HARD_ALWAYS) continue;
        uint64_t weight = value_at(&r, i);
        int yes = met >> k & 1;
        at = put_preference(at, k++, mark, weight, yes);
        sum[yes] += weight;
    }
    return put_worth(at, cost, sum[1], sum[0]);
}

uint32_t plain_report(const uint8_t *file, size_t length, const uint8_t *plan, size_t steps, uint8_t *out, size_t room,
                      uint64_t answer[8])
{
    uint8_t text[ROUTE_RULES_MAX_REPORT], *end;
    uint32_t number = plain_walk(file, length, plan, steps, answer);
    if (number != 0) return number;
    switch (answer[1]) {
    case ROUTE_RULES_SOLVED: end = put_solved(text, file, steps, answer[3], answer[4]); break;
    case ROUTE_RULES_STOPPED: end = PUT(put_number(PUT(text, "stopped "), answer[2]), "\n"); break;
    case ROUTE_RULES_GOAL_MISSED: end = PUT(text, "goal missed\n"); break;
    default: end = PUT(put_number(PUT(text, "rule missed "), answer[2]), "\n");
    }
    size_t made = end - text;
    if (made > room) return refuse(ROUTE_RULES_REFUSED_SHORT_OUTPUT, 0, answer);
    memcpy(out, text, made);
    return answer_length(made, answer);
}
