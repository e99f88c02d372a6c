/* check, walk, settle, week, translate, lost, source, spell, single and search in C, written from documents 01 and 02 for speed, to measure the
 * library beside. The answers are those of include/route_rules.h.
 *
 * plain_ reads the rows where they lie: parts of a file are found once, a condition is left as soon as it is decided, parts of
 * the source are copied by memcpy, the members of a list are put in order as bits of words. tuned_ also makes tables before it
 * begins: walk turns every literal into a byte and every effect into masks over the state, translate writes the trackers of all
 * preferences once and copies them into each action. Settle reads each weight once, so there is no table to make. */
#include "plain.h"

#include <string.h>

#define MAX_ROWS ROUTE_RULES_MAX_ROWS
#define MAX_DEADLINE ROUTE_RULES_MAX_DEADLINE

typedef struct { uint64_t word[2]; } State;

/* The rows of a file, and where its parts begin. */
typedef struct {
    const uint8_t *marks, *values;
    uint32_t rows, at;
    uint32_t facts, actions, preferences;
    uint32_t goal, first_action, first_preference; /* rows */
    uint32_t action[129];                          /* row of ACTION; after the last: where the preferences begin */
    struct {
        uint32_t open, phi, second, next; /* row of the preference, of its first condition, of SECOND or next, and after it */
        uint32_t steps, d;                /* its deadline; the first of its facts D */
        uint8_t kind, hard;               /* the mark of its kind made soft; whether it must hold */
    } side[16];
    uint32_t number; /* of a refusal */
    uint64_t place;
} Task;

static inline uint32_t value_at(const Task *t, uint32_t i)
{
    uint32_t v;
    memcpy(&v, t->values + 4 * (size_t)i, 4);
    return v;
}

static int refuse(Task *t, uint32_t number, uint64_t place)
{
    t->number = number;
    t->place = place;
    return 0;
}

static inline int next_is(const Task *t, uint8_t mark)
{
    return t->at < t->rows && t->marks[t->at] == mark;
}

/* The next row, which has a mark that may come: its value is at most `most`. */
static inline int take(Task *t, uint32_t most)
{
    if (value_at(t, t->at) > most) return refuse(t, ROUTE_RULES_REFUSED_VALUE, t->at);
    t->at++;
    return 1;
}

static int need(Task *t, uint8_t mark, uint32_t most)
{
    if (!next_is(t, mark)) return refuse(t, ROUTE_RULES_REFUSED_MARK, t->at);
    return take(t, most);
}

static inline int opens_hard(uint8_t mark) { return mark >= HARD_ALWAYS && mark <= HARD_ALWAYS_WITHIN && mark != HARD_SECOND; }

static inline int opens(uint8_t mark)
{
    return (mark >= ALWAYS && mark <= ALWAYS_WITHIN && mark != SECOND) || opens_hard(mark);
}

static inline int has_steps(uint8_t kind) { return kind >= WITHIN; }

static inline int has_second(uint8_t kind) { return kind == SOMETIME_BEFORE || kind == SOMETIME_AFTER || kind == ALWAYS_WITHIN; }

static int read_condition(Task *t)
{
    while (next_is(t, CLAUSE)) {
        if (!take(t, 0)) return 0;
        uint32_t first = t->at;
        while (next_is(t, HOLDS) || next_is(t, LACKS))
            if (!take(t, t->facts - 1)) return 0;
        if (t->at == first) return refuse(t, ROUTE_RULES_REFUSED_MARK, t->at);
    }
    return 1;
}

static int read_action(Task *t)
{
    if (t->actions < 128) t->action[t->actions] = t->at;
    t->actions++;
    if (!take(t, ROUTE_RULES_MAX_AMOUNT) || !read_condition(t)) return 0;
    while (next_is(t, EFFECT)) {
        if (!take(t, 0) || !read_condition(t)) return 0;
        while (next_is(t, ADD))
            if (!take(t, t->facts - 1)) return 0;
        while (next_is(t, DELETE))
            if (!take(t, t->facts - 1)) return 0;
    }
    return 1;
}

static int read_preference(Task *t)
{
    uint32_t open = t->at;
    int hard = opens_hard(t->marks[open]);
    uint8_t kind = t->marks[open] - (hard ? HARD : 0);
    if (!take(t, hard ? 0 : ROUTE_RULES_MAX_AMOUNT)) return 0;
    if (has_steps(kind) && !need(t, STEPS, MAX_DEADLINE)) return 0;
    uint32_t phi = t->at;
    if (!read_condition(t)) return 0;
    uint32_t second = t->at;
    if (has_second(kind) && (!need(t, SECOND, 0) || !read_condition(t))) return 0;
    if (t->preferences < 16) {
        t->side[t->preferences].open = open;
        t->side[t->preferences].phi = phi;
        t->side[t->preferences].second = second;
        t->side[t->preferences].next = t->at;
        t->side[t->preferences].steps = has_steps(kind) ? value_at(t, open + 1) : 0;
        t->side[t->preferences].kind = kind;
        t->side[t->preferences].hard = hard;
    }
    t->preferences++;
    return 1;
}

static int read_rows(Task *t)
{
    for (uint32_t floor = 0; next_is(t, START); floor = value_at(t, t->at - 1) + 1) {
        if (value_at(t, t->at) < floor) return refuse(t, ROUTE_RULES_REFUSED_VALUE, t->at);
        if (!take(t, t->facts - 1)) return 0;
    }
    t->goal = t->at;
    if (!need(t, GOAL, 0) || !read_condition(t)) return 0;
    t->first_action = t->at;
    while (next_is(t, ACTION))
        if (!read_action(t)) return 0;
    t->first_preference = t->at;
    if (t->actions <= 128) t->action[t->actions] = t->at;
    while (t->at < t->rows && opens(t->marks[t->at]))
        if (!read_preference(t)) return 0;
    return t->at == t->rows || refuse(t, ROUTE_RULES_REFUSED_MARK, t->at);
}

static int check(Task *t, const uint8_t *file, size_t length)
{
    t->number = 0;
    t->place = 0;
    if (length < 8) return refuse(t, ROUTE_RULES_REFUSED_SHORT_FILE, 0);
    uint32_t facts = file[0] | file[1] << 8, actions = file[2] | file[3] << 8, preferences = file[4] | file[5] << 8;
    t->rows = file[6] | file[7] << 8;
    if (facts < 1 || facts > 128 || actions > 128 || preferences > 16 || t->rows > MAX_ROWS)
        return refuse(t, ROUTE_RULES_REFUSED_SIZE, 0);
    if (length != 8 + 5 * (size_t)t->rows) return refuse(t, ROUTE_RULES_REFUSED_LENGTH, 0);
    t->marks = file + 8;
    t->values = file + 8 + t->rows;
    t->at = 0;
    t->facts = facts;
    t->actions = t->preferences = 0;
    if (!read_rows(t)) return 0;
    if (t->actions != actions || t->preferences != preferences) return refuse(t, ROUTE_RULES_REFUSED_COUNTS, t->rows);
    return 1;
}

uint32_t plain_check(const uint8_t *file, size_t length, uint64_t answer[8])
{
    Task t;
    memset(answer, 0, 64);
    if (check(&t, file, length)) {
        answer[1] = t.facts;
        answer[2] = t.actions;
        answer[3] = t.preferences;
        answer[4] = t.rows;
    }
    answer[0] = t.place;
    return t.number;
}

/* ---- walk */

static inline int holds(State s, uint32_t fact) { return s.word[fact / 64] >> (fact % 64) & 1; }

static inline void set(State *s, uint32_t fact) { s->word[fact / 64] |= (uint64_t)1 << (fact % 64); }

/* Whether the clause whose literals stand from row *at on is true; *at is then after it. Literals up to the first true one are
 * looked at, and counted. */
static int clause_true(const Task *t, uint32_t *at, State s, uint64_t *looked)
{
    uint32_t i = *at;
    int yes = 0;
    for (; i < t->rows && (t->marks[i] == HOLDS || t->marks[i] == LACKS); i++)
        if (holds(s, value_at(t, i)) == (t->marks[i] == HOLDS)) {
            yes = 1;
            break;
        }
    *looked += i - *at + yes;
    while (i < t->rows && (t->marks[i] == HOLDS || t->marks[i] == LACKS)) i++;
    *at = i;
    return yes;
}

static int condition_true(const Task *t, uint32_t *at, State s, uint64_t *looked)
{
    while (*at < t->rows && t->marks[*at] == CLAUSE) {
        ++*at;
        if (!clause_true(t, at, s, looked)) return 0;
    }
    return 1;
}

static int true_at(const Task *t, uint32_t at, State s, uint64_t *looked) { return condition_true(t, &at, s, looked); }

/* The state after an action whose effects stand from row `at` up to row `end`. A condition that was left early is passed. */
static State after(const Task *t, uint32_t at, uint32_t end, State s, uint64_t *looked)
{
    State adds = {{0, 0}}, deletes = {{0, 0}};
    while (at < end) {
        at++;
        int fires = condition_true(t, &at, s, looked);
        while (at < end && t->marks[at] != ADD && t->marks[at] != DELETE && t->marks[at] != EFFECT) at++;
        for (; at < end && t->marks[at] == ADD; at++)
            if (fires) set(&adds, value_at(t, at));
        for (; at < end && t->marks[at] == DELETE; at++)
            if (fires) set(&deletes, value_at(t, at));
    }
    for (int w = 0; w < 2; w++) s.word[w] = (s.word[w] & ~deletes.word[w]) | adds.word[w];
    return s;
}

/* What is known of a preference after the states so far. */
typedef struct { uint8_t s, b, age; } Monitor;

static inline void watch(Monitor *m, uint8_t kind, uint32_t steps, int last, int phi, int psi)
{
    switch (kind) {
    case ALWAYS: m->b |= !phi; break;
    case SOMETIME: m->s |= phi; break;
    case AT_END: m->s |= last & phi; break;
    case AT_MOST_ONCE: /* s: φ was seen; b: and was false again since, or true once more (s gone) */
        if (!m->s && !m->b) m->s = phi;
        else if (m->s && !phi) m->b = 1;
        else if (m->s && m->b && phi) m->s = 0;
        break;
    case SOMETIME_BEFORE:
        m->b |= phi & !m->s;
        m->s |= psi;
        break;
    case SOMETIME_AFTER: m->b = (phi | m->b) & !psi; break;
    case WITHIN: /* age: the number of the state, up to one after the deadline */
        if (m->age > steps) break;
        m->s |= phi;
        m->age++;
        break;
    default: /* b: a φ waits for ψ; age: for how many states already; s: for too many */
        if (psi && !m->s)
            m->b = m->age = 0;
        else if (!psi && (phi | m->b)) {
            m->b = 1;
            if (m->age < steps)
                m->age++;
            else
                m->s = 1;
        }
    }
}

static inline int good(Monitor m, uint8_t kind)
{
    return kind == SOMETIME || kind == AT_END || kind == WITHIN ? m.s : kind == AT_MOST_ONCE ? m.s | !m.b : !m.b;
}

static int admitted_below(Task *t, uint32_t actions, const uint8_t *plan, size_t steps)
{
    if (steps > ROUTE_RULES_MAX_STEPS) return refuse(t, ROUTE_RULES_REFUSED_LONG_PLAN, 0);
    for (size_t i = 0; i < steps; i++)
        if (plan[i] >= actions) return refuse(t, ROUTE_RULES_REFUSED_STEP, i);
    return 1;
}

static int admitted(Task *t, const uint8_t *plan, size_t steps) { return admitted_below(t, t->actions, plan, steps); }

/* The verdict on a plan whose goal holds: the lowest hard rule that is missed is named. */
static void solved(const Task *t, const Monitor *m, uint64_t cost, uint64_t answer[8])
{
    uint64_t met = 0;
    for (uint32_t k = 0; k < t->preferences; k++) {
        int yes = good(m[k], t->side[k].kind);
        if (t->side[k].hard && !yes) {
            answer[1] = ROUTE_RULES_RULE_MISSED;
            answer[2] = k;
            return;
        }
        met |= (uint64_t)yes << k;
    }
    answer[1] = ROUTE_RULES_SOLVED;
    answer[3] = cost;
    answer[4] = met;
}

static uint32_t stopped(size_t step, uint64_t looked, uint64_t answer[8])
{
    answer[1] = ROUTE_RULES_STOPPED;
    answer[2] = step;
    answer[5] = looked;
    return 0;
}

static State opening(const Task *t)
{
    State s = {{0, 0}};
    for (uint32_t i = 0; i < t->goal; i++) set(&s, value_at(t, i));
    return s;
}

static void watch_all(const Task *t, Monitor *m, int last, State s, uint64_t *looked)
{
    for (uint32_t k = 0; k < t->preferences; k++) {
        uint8_t kind = t->side[k].kind;
        int phi = true_at(t, t->side[k].phi, s, looked);
        int psi = has_second(kind) ? true_at(t, t->side[k].second + 1, s, looked) : 1;
        watch(&m[k], kind, t->side[k].steps, last, phi, psi);
    }
}

/* A walk of a plan of known steps on an accepted file. */
static void walk(const Task *t, const uint8_t *plan, size_t steps, uint64_t answer[8])
{
    Monitor m[16] = {{0, 0, 0}};
    State s = opening(t);
    uint64_t cost = 0, looked = 0;
    for (size_t i = 0; i < steps; i++) {
        uint32_t at = t->action[plan[i]], from = at + 1;
        watch_all(t, m, 0, s, &looked);
        if (!condition_true(t, &from, s, &looked)) {
            stopped(i, looked, answer);
            return;
        }
        cost += value_at(t, at);
        s = after(t, from, t->action[plan[i] + 1], s, &looked);
    }
    watch_all(t, m, 1, s, &looked);
    if (true_at(t, t->goal + 1, s, &looked))
        solved(t, m, cost, answer);
    else
        answer[1] = ROUTE_RULES_GOAL_MISSED;
    answer[5] = looked;
}

uint32_t plain_walk(const uint8_t *file, size_t length, const uint8_t *plan, size_t steps, uint64_t answer[8])
{
    Task t;
    memset(answer, 0, 64);
    if (check(&t, file, length) && admitted(&t, plan, steps))
        walk(&t, plan, steps, answer);
    else
        answer[0] = t.place;
    return t.number;
}

/* The same with tables. A literal is its fact, and 128 more where the fact is to lack. */
typedef struct { uint16_t from, to; } Clauses;

typedef struct { Clauses when; State adds, deletes; } Effect;

typedef struct {
    uint8_t literal[MAX_ROWS];
    struct { uint16_t from, to; } clause[MAX_ROWS]; /* its literals */
    Effect effect[MAX_ROWS];
    uint32_t literals, clauses, effects;
    struct { Clauses when; uint16_t from, to; } action[128];
    Clauses phi[16], psi[16], goal;
} Tables;

static Clauses table_condition(const Task *t, Tables *x, uint32_t *at)
{
    Clauses c;
    uint32_t i = *at;
    c.from = x->clauses;
    while (i < t->rows && t->marks[i] == CLAUSE) {
        x->clause[x->clauses].from = x->literals;
        for (i++; i < t->rows && (t->marks[i] == HOLDS || t->marks[i] == LACKS); i++)
            x->literal[x->literals++] = value_at(t, i) + (t->marks[i] == LACKS) * 128;
        x->clause[x->clauses++].to = x->literals;
    }
    c.to = x->clauses;
    *at = i;
    return c;
}

static void table_action(const Task *t, Tables *x, uint32_t k)
{
    uint32_t at = t->action[k] + 1, end = t->action[k + 1];
    x->action[k].when = table_condition(t, x, &at);
    x->action[k].from = x->effects;
    while (at < end) {
        Effect *e = &x->effect[x->effects++];
        at++;
        memset(e, 0, sizeof *e);
        e->when = table_condition(t, x, &at);
        for (; at < end && t->marks[at] == ADD; at++) set(&e->adds, value_at(t, at));
        for (; at < end && t->marks[at] == DELETE; at++) set(&e->deletes, value_at(t, at));
    }
    x->action[k].to = x->effects;
}

static void table_all(const Task *t, Tables *x)
{
    uint32_t at = t->goal + 1;
    x->literals = x->clauses = x->effects = 0;
    x->goal = table_condition(t, x, &at);
    for (uint32_t k = 0; k < t->actions; k++) table_action(t, x, k);
    for (uint32_t k = 0; k < t->preferences; k++) {
        at = t->side[k].phi;
        x->phi[k] = table_condition(t, x, &at);
        at = t->side[k].second + 1;
        if (has_second(t->side[k].kind)) x->psi[k] = table_condition(t, x, &at);
    }
}

static inline int literal_true(uint8_t literal, State s) { return (s.word[literal / 64 % 2] >> (literal % 64) & 1) != literal / 128; }

static inline int clauses_true(const Tables *x, Clauses c, State s, uint64_t *looked)
{
    for (uint32_t i = c.from; i < c.to; i++) {
        uint32_t from = x->clause[i].from, to = x->clause[i].to, at = from;
        while (at < to && !literal_true(x->literal[at], s)) at++;
        *looked += at - from + (at < to);
        if (at == to) return 0;
    }
    return 1;
}

static void watch_tables(const Task *t, const Tables *x, Monitor *m, int last, State s, uint64_t *looked)
{
    for (uint32_t k = 0; k < t->preferences; k++) {
        uint8_t kind = t->side[k].kind;
        int phi = clauses_true(x, x->phi[k], s, looked);
        int psi = has_second(kind) ? clauses_true(x, x->psi[k], s, looked) : 1;
        watch(&m[k], kind, t->side[k].steps, last, phi, psi);
    }
}

static State after_tables(const Tables *x, uint32_t k, State s, uint64_t *looked)
{
    State adds = {{0, 0}}, deletes = {{0, 0}};
    for (uint32_t i = x->action[k].from; i < x->action[k].to; i++) {
        const Effect *e = &x->effect[i];
        if (!clauses_true(x, e->when, s, looked)) continue;
        for (int w = 0; w < 2; w++) {
            adds.word[w] |= e->adds.word[w];
            deletes.word[w] |= e->deletes.word[w];
        }
    }
    for (int w = 0; w < 2; w++) s.word[w] = (s.word[w] & ~deletes.word[w]) | adds.word[w];
    return s;
}

uint32_t tuned_walk(const uint8_t *file, size_t length, const uint8_t *plan, size_t steps, uint64_t answer[8])
{
    Task t;
    Tables x;
    Monitor m[16] = {{0, 0, 0}};
    memset(answer, 0, 64);
    if (!check(&t, file, length) || !admitted(&t, plan, steps)) {
        answer[0] = t.place;
        return t.number;
    }
    table_all(&t, &x);
    State s = opening(&t);
    uint64_t cost = 0, looked = 0;
    for (size_t i = 0; i < steps; i++) {
        watch_tables(&t, &x, m, 0, s, &looked);
        if (!clauses_true(&x, x.action[plan[i]].when, s, &looked)) return stopped(i, looked, answer);
        cost += value_at(&t, t.action[plan[i]]);
        s = after_tables(&x, plan[i], s, &looked);
    }
    watch_tables(&t, &x, m, 1, s, &looked);
    if (clauses_true(&x, x.goal, s, &looked))
        solved(&t, m, cost, answer);
    else
        answer[1] = ROUTE_RULES_GOAL_MISSED;
    answer[5] = looked;
    return 0;
}

/* ---- settle */

uint32_t plain_settle(const uint8_t *file, size_t length, uint64_t cost, uint64_t met, uint64_t answer[8])
{
    Task t;
    uint64_t gained = 0, lost = 0;
    memset(answer, 0, 64);
    if (!check(&t, file, length)) {
        answer[0] = t.place;
        return t.number;
    }
    if (cost > ROUTE_RULES_MAX_COST || met >> t.preferences != 0) return ROUTE_RULES_REFUSED_ARGUMENT;
    for (uint32_t k = 0; k < t.preferences; k++) {
        uint64_t weight = value_at(&t, t.side[k].open);
        if (met >> k & 1)
            gained += weight;
        else
            lost += weight;
    }
    answer[1] = cost + lost;
    answer[2] = gained - cost;
    return 0;
}

/* ---- week */

/* A file of plans: a count, starts, lengths, and the steps. */
typedef struct { const uint8_t *starts, *lengths, *steps; uint32_t count; size_t room; } Plans;

static inline uint32_t half_at(const uint8_t *at) { return at[0] | at[1] << 8; }

static int read_plans(Plans *p, const uint8_t *plans, size_t length)
{
    if (length < 2) return 0;
    p->count = half_at(plans);
    if (p->count < 1 || p->count > ROUTE_RULES_MAX_PLANS || length < 2 + 4 * (size_t)p->count) return 0;
    p->starts = plans + 2;
    p->lengths = p->starts + 2 * p->count;
    p->steps = p->lengths + 2 * p->count;
    p->room = length - 2 - 4 * (size_t)p->count;
    for (uint32_t i = 0; i < p->count; i++)
        if ((size_t)half_at(p->starts + 2 * i) + half_at(p->lengths + 2 * i) > p->room) return 0;
    return 1;
}

/* One more plan that solves: a preference is met, or its weight is paid. */
static void count_plan(const Task *t, uint64_t metric, uint64_t met, uint64_t answer[24])
{
    for (uint32_t k = 0; k < t->preferences; k++)
        if (met >> k & 1)
            answer[8 + k]++;
        else
            metric += value_at(t, t->side[k].open);
    if (answer[1] == 0 || metric < answer[2]) answer[2] = metric;
    if (metric > answer[3]) answer[3] = metric;
    answer[1]++;
    answer[4] += metric;
}

static uint32_t refused_week(uint32_t number, uint64_t place, uint64_t answer[24])
{
    memset(answer, 0, 192);
    answer[0] = place;
    return number;
}

uint32_t plain_week(const uint8_t *file, size_t length, const uint8_t *plans, size_t plans_length, uint64_t answer[24])
{
    Task t;
    Plans p;
    memset(answer, 0, 192);
    if (!check(&t, file, length)) return refused_week(t.number, t.place, answer);
    if (!read_plans(&p, plans, plans_length)) return ROUTE_RULES_REFUSED_PLANS;
    for (uint32_t i = 0; i < p.count; i++) {
        const uint8_t *plan = p.steps + half_at(p.starts + 2 * i);
        uint32_t steps = half_at(p.lengths + 2 * i);
        uint64_t walked[8] = {0};
        if (!admitted(&t, plan, steps)) return refused_week(t.number, i, answer);
        walk(&t, plan, steps, walked);
        if (walked[1] == ROUTE_RULES_SOLVED) count_plan(&t, walked[3], walked[4], answer);
    }
    if (answer[1] == 0) return 0;
    answer[5] = answer[4] / answer[1];
    answer[6] = answer[4] % answer[1];
    return 0;
}

/* ---- translate */

typedef struct {
    const Task *source;
    uint8_t *marks, *values;
    uint32_t at;
} Writer;

static inline void put(Writer *w, uint8_t mark, uint32_t value)
{
    w->marks[w->at] = mark;
    memcpy(w->values + 4 * (size_t)w->at, &value, 4);
    w->at++;
}

static inline void put_single(Writer *w, uint8_t mark, uint32_t fact)
{
    put(w, CLAUSE, 0);
    put(w, mark, fact);
}

static inline void copy(Writer *w, uint32_t from, uint32_t to)
{
    memcpy(w->marks + w->at, w->source->marks + from, to - from);
    memcpy(w->values + 4 * (size_t)w->at, w->source->values + 4 * (size_t)from, 4 * (size_t)(to - from));
    w->at += to - from;
}

/* What stands before the denied literals of a clause: holds s if `held`, and the rows from `from` up to `to`. */
typedef struct { int held; uint32_t s, from, to; } Guard;

/* An effect for each false clause of the condition from row `at` up to row `to`, after a guard, which adds b, and `also` if that
 * is not 0. */
static void put_false(Writer *w, uint32_t at, uint32_t to, Guard g, uint32_t b, uint32_t also)
{
    while (at < to) {
        put(w, EFFECT, 0);
        if (g.held) put_single(w, HOLDS, g.s);
        copy(w, g.from, g.to);
        for (at++; at < to && w->source->marks[at] != CLAUSE; at++)
            put_single(w, w->source->marks[at] == HOLDS ? LACKS : HOLDS, value_at(w->source, at));
        put(w, ADD, b);
        if (also) put(w, ADD, also);
    }
}

static void put_within(Writer *w, uint32_t k)
{
    const Task *t = w->source;
    uint32_t d = t->side[k].d, steps = t->side[k].steps;
    put(w, EFFECT, 0);
    put(w, ADD, d);
    for (uint32_t j = 1; j <= steps; j++) {
        put(w, EFFECT, 0);
        put_single(w, HOLDS, d + j - 1);
        put(w, ADD, d + j);
    }
    put(w, EFFECT, 0);
    put_single(w, LACKS, d + steps);
    copy(w, t->side[k].phi, t->side[k].second);
    put(w, ADD, t->facts + 3 * k);
}

static void put_always_within(Writer *w, uint32_t k)
{
    const Task *t = w->source;
    uint32_t phi = t->side[k].phi, second = t->side[k].second, next = t->side[k].next;
    uint32_t d = t->side[k].d, steps = t->side[k].steps, s = t->facts + 3 * k, b = s + 1;
    put_false(w, second + 1, next, (Guard){0, s, phi, second}, b, steps > 0 ? d : s);
    for (uint32_t j = 1; j <= steps; j++)
        put_false(w, second + 1, next, (Guard){1, d + j - 1, 0, 0}, j < steps ? d + j : s, 0);
    put(w, EFFECT, 0);
    put_single(w, LACKS, s);
    copy(w, second + 1, next);
    put(w, DELETE, b);
    for (uint32_t j = 0; j < steps; j++) put(w, DELETE, d + j);
}

static void put_tracker(Writer *w, uint32_t k, int last)
{
    const Task *t = w->source;
    uint32_t phi = t->side[k].phi, second = t->side[k].second, next = t->side[k].next;
    uint32_t s = t->facts + 3 * k, b = s + 1;
    switch (t->side[k].kind) {
    case ALWAYS: put_false(w, phi, second, (Guard){0, s, 0, 0}, b, 0); break;
    case AT_END:
        if (!last) break;
        /* fall through */
    case SOMETIME:
        put(w, EFFECT, 0);
        copy(w, phi, second);
        put(w, ADD, s);
        break;
    case AT_MOST_ONCE:
        put(w, EFFECT, 0);
        put_single(w, LACKS, s);
        put_single(w, LACKS, b);
        copy(w, phi, second);
        put(w, ADD, s);
        put_false(w, phi, second, (Guard){1, s, 0, 0}, b, 0);
        put(w, EFFECT, 0);
        put_single(w, HOLDS, s);
        put_single(w, HOLDS, b);
        copy(w, phi, second);
        put(w, DELETE, s);
        break;
    case SOMETIME_BEFORE:
        put(w, EFFECT, 0);
        copy(w, second + 1, next);
        put(w, ADD, s);
        put(w, EFFECT, 0);
        put_single(w, LACKS, s);
        copy(w, phi, second);
        put(w, ADD, b);
        break;
    case SOMETIME_AFTER:
        put_false(w, second + 1, next, (Guard){0, s, phi, second}, b, 0);
        put(w, EFFECT, 0);
        copy(w, second + 1, next);
        put(w, DELETE, b);
        break;
    case WITHIN: put_within(w, k); break;
    default: put_always_within(w, k);
    }
}

static void put_trackers(Writer *w, int last)
{
    for (uint32_t k = 0; k < w->source->preferences; k++) put_tracker(w, k, last);
}

static uint64_t clauses(const Task *t, uint32_t at, uint32_t to)
{
    uint64_t count = 0;
    for (; at < to; at++) count += t->marks[at] == CLAUSE;
    return count;
}

/* How many rows the tracker of preference k has. */
static uint64_t tracker_rows(const Task *t, uint32_t k, int last)
{
    uint32_t first = t->side[k].phi, second = t->side[k].second, next = t->side[k].next;
    uint64_t phi = second - first, psi = next > second ? next - second - 1 : 0, steps = t->side[k].steps;
    switch (t->side[k].kind) {
    /* of a denied condition, EFFECT and ADD of each clause, and two rows for a literal */
    case ALWAYS: return 2 * phi;
    case AT_END: return last ? phi + 2 : 0;
    case SOMETIME: return phi + 2;
    case AT_MOST_ONCE: return 2 * phi + 2 * clauses(t, first, second) + 2 * (phi + 6);
    case SOMETIME_BEFORE: return psi + 2 + phi + 4;
    case SOMETIME_AFTER: return 2 * psi + phi * clauses(t, second + 1, next) + psi + 2;
    case WITHIN: return 2 + 4 * steps + phi + 4;
    /* once with φ and two ADD rows, for each step with a literal, and the deletes */
    default:
        return 2 * psi + (phi + 1) * clauses(t, second + 1, next) + steps * (2 * psi + 2 * clauses(t, second + 1, next)) + psi +
               4 + steps;
    }
}

static uint64_t count_rows(const Task *t)
{
    uint64_t rows = t->first_preference + 1 + 2 + 2 * (uint64_t)t->preferences + 2 * (uint64_t)t->actions;
    uint64_t normal = 0, last = 0, closing = 0;
    for (uint32_t k = 0; k < t->preferences; k++) {
        normal += tracker_rows(t, k, 0);
        last += tracker_rows(t, k, 1);
        /* collect and forgo: ACTION, three or two clauses, met or missed, EFFECT, ADD; forgo of a hard rule lacks *ended* */
        closing += 2 * (3 + 2 * (k > 0 ? 3 : 2)) + (t->side[k].kind == AT_MOST_ONCE ? 7 : 4) + (t->side[k].hard ? 2 : 0);
    }
    return rows + t->actions * normal + 6 + last + closing;
}

static void put_closing(Writer *w, uint32_t k, int collect)
{
    const Task *t = w->source;
    uint32_t s = t->facts + 3 * k, b = s + 1, ended = t->facts + 3 * t->preferences + 1;
    put(w, ACTION, collect ? 0 : value_at(t, t->side[k].open));
    put_single(w, HOLDS, ended);
    if (k > 0) put_single(w, HOLDS, s - 1);
    put_single(w, LACKS, s + 2);
    switch (t->side[k].kind) {
    case SOMETIME:
    case WITHIN:
    case AT_END: put_single(w, collect ? HOLDS : LACKS, s); break;
    case AT_MOST_ONCE:
        put_single(w, collect ? HOLDS : LACKS, s);
        if (collect)
            put(w, LACKS, b);
        else
            put_single(w, HOLDS, b);
        break;
    default: put_single(w, collect ? LACKS : HOLDS, b);
    }
    if (t->side[k].hard && !collect) put_single(w, LACKS, ended);
    put(w, EFFECT, 0);
    put(w, ADD, s + 2);
}

/* The source's actions. With `once` the trackers are written in the first action only, and copied from there. */
static void put_actions(Writer *w, uint32_t normal, int once)
{
    const Task *t = w->source;
    uint32_t from = 0, rows = 0;
    for (uint32_t k = 0; k < t->actions; k++) {
        uint32_t at = t->action[k], mid = at + 1;
        while (mid < t->action[k + 1] && t->marks[mid] != EFFECT) mid++;
        copy(w, at, mid);
        put_single(w, HOLDS, normal);
        copy(w, mid, t->action[k + 1]);
        if (once && k > 0) {
            memcpy(w->marks + w->at, w->marks + from, rows);
            memcpy(w->values + 4 * (size_t)w->at, w->values + 4 * (size_t)from, 4 * (size_t)rows);
            w->at += rows;
        } else {
            from = w->at;
            put_trackers(w, 0);
            rows = w->at - from;
        }
    }
}

static void put_size(uint8_t *out, uint32_t size)
{
    out[0] = size & 255;
    out[1] = size >> 8;
}

/* Notes where the facts D of each preference begin, and answers how many facts the translation has. */
static uint32_t number_facts(Task *t)
{
    uint32_t facts = t->facts + 3 * t->preferences + 2;
    for (uint32_t k = 0; k < t->preferences; k++) {
        t->side[k].d = facts;
        facts += t->side[k].steps + (t->side[k].kind == WITHIN);
    }
    return facts;
}

static uint32_t translate(const uint8_t *file, size_t length, uint8_t *out, size_t room, uint64_t answer[8], int once)
{
    Task t;
    memset(answer, 0, 64);
    if (!check(&t, file, length)) {
        answer[0] = t.place;
        return t.number;
    }
    uint32_t normal = t.facts + 3 * t.preferences, facts = number_facts(&t);
    if (facts > 128 || t.actions + 2 * t.preferences + 1 > 128) return ROUTE_RULES_REFUSED_TOO_MANY;
    uint64_t rows = count_rows(&t);
    if (rows > MAX_ROWS) return ROUTE_RULES_REFUSED_TRANSLATION_ROWS;
    if (room < 8 + 5 * rows) return ROUTE_RULES_REFUSED_SHORT_OUTPUT;
    put_size(out, facts);
    put_size(out + 2, t.actions + 2 * t.preferences + 1);
    put_size(out + 4, 0);
    put_size(out + 6, rows);
    Writer w = {&t, out + 8, out + 8 + rows, 0};
    copy(&w, 0, t.goal);
    put(&w, START, normal);
    copy(&w, t.goal, t.first_action);
    put_single(&w, HOLDS, normal + 1);
    for (uint32_t k = 0; k < t.preferences; k++) put_single(&w, HOLDS, t.facts + 3 * k + 2);
    put_actions(&w, normal, once);
    put(&w, ACTION, 0);
    put_single(&w, HOLDS, normal);
    put(&w, EFFECT, 0);
    put(&w, ADD, normal + 1);
    put(&w, DELETE, normal);
    put_trackers(&w, 1);
    for (uint32_t k = 0; k < t.preferences; k++) {
        put_closing(&w, k, 1);
        put_closing(&w, k, 0);
    }
    answer[1] = 8 + 5 * rows;
    return 0;
}

uint32_t plain_translate(const uint8_t *file, size_t length, uint8_t *out, size_t room, uint64_t answer[8])
{
    return translate(file, length, out, room, answer, 0);
}

uint32_t tuned_translate(const uint8_t *file, size_t length, uint8_t *out, size_t room, uint64_t answer[8])
{
    return translate(file, length, out, room, answer, 1);
}

/* ---- lost */

/* A run of the translation as far as it has come, on the source's rows: monitors write S, B and D, and C holds below `closed`. */
typedef struct {
    const Task *t;
    Monitor m[16];
    State s;
    uint64_t cost;
    uint32_t closed;
    int ended;
} Run;

/* A source action, or end, which leaves the state that they find. */
static int leave(Run *r, uint32_t step)
{
    const Task *t = r->t;
    uint64_t looked = 0;
    int last = step == t->actions;
    uint32_t from = last ? 0 : t->action[step] + 1;
    if (r->ended || (!last && !condition_true(t, &from, r->s, &looked))) return 0;
    watch_all(t, r->m, last, r->s, &looked);
    r->ended = last;
    if (last) return 1;
    r->cost += value_at(t, t->action[step]);
    r->s = after(t, from, t->action[step + 1], r->s, &looked);
    return 1;
}

/* Collect k or forgo k: rules are closed in their order, by what the monitor says, and a hard one is never forgone. */
static int close_rule(Run *r, uint32_t k, int collect)
{
    if (!r->ended || k != r->closed || good(r->m[k], r->t->side[k].kind) != collect) return 0;
    if (!collect && r->t->side[k].hard) return 0;
    if (!collect) r->cost += value_at(r->t, r->t->side[k].open);
    r->closed++;
    return 1;
}

static uint64_t lost_weights(const Run *r)
{
    uint64_t lost = 0;
    for (uint32_t k = r->closed; k < r->t->preferences; k++) {
        uint8_t kind = r->t->side[k].kind;
        int shown = kind == ALWAYS || kind == SOMETIME_BEFORE || (kind == AT_MOST_ONCE && !r->m[k].s);
        if (shown && r->m[k].b && !r->t->side[k].hard) lost += value_at(r->t, r->t->side[k].open);
    }
    return lost;
}

/* Whether the source has a translation: 7 and 8, which is over its rows. */
static int translatable(Task *t)
{
    if (number_facts(t) > 128 || t->actions + 2 * t->preferences + 1 > 128) return refuse(t, ROUTE_RULES_REFUSED_TOO_MANY, 0);
    return count_rows(t) <= MAX_ROWS || refuse(t, ROUTE_RULES_REFUSED_TRANSLATION_ROWS, 0);
}

uint32_t plain_lost(const uint8_t *file, size_t length, const uint8_t *steps, size_t count, uint64_t answer[8])
{
    Task t;
    memset(answer, 0, 64);
    if (!check(&t, file, length) || !translatable(&t) || !admitted_below(&t, t.actions + 2 * t.preferences + 1, steps, count)) {
        answer[0] = t.place;
        return t.number;
    }
    Run r = {.t = &t, .s = opening(&t)};
    for (size_t i = 0; i < count; i++) {
        uint32_t closing = steps[i] - t.actions - 1; /* of a number over A */
        if (steps[i] <= t.actions ? !leave(&r, steps[i]) : !close_rule(&r, closing / 2, closing % 2 == 0)) {
            answer[1] = ROUTE_RULES_STOPPED;
            answer[2] = i;
            return 0;
        }
    }
    answer[1] = ROUTE_RULES_RUN;
    answer[3] = r.cost;
    answer[4] = lost_weights(&r);
    return 0;
}

/* ---- source */

uint32_t plain_source(const uint8_t *file, size_t length, const uint8_t *text, size_t text_length, uint8_t *out, size_t room,
                      uint64_t answer[8])
{
    Task t;
    uint8_t list[ROUTE_RULES_MAX_STEPS], part[ROUTE_RULES_MAX_STEPS];
    uint64_t read[8];
    size_t steps = 0;
    memset(answer, 0, 64);
    if (check(&t, file, length) && translatable(&t)) {
        t.number = plain_read_plan(text, text_length, list, sizeof list, read);
        t.place = read[0];
    }
    if (t.number != 0 || !admitted_below(&t, t.actions + 2 * t.preferences + 1, list, read[1])) {
        answer[0] = t.place;
        return t.number;
    }
    for (size_t i = 0; i < read[1]; i++)
        if (list[i] < t.actions) part[steps++] = list[i];
    if (room < steps) return ROUTE_RULES_REFUSED_SHORT_OUTPUT;
    memcpy(out, part, steps);
    answer[1] = steps;
    return 0;
}

/* ---- spell */

/* The literals from row `at` on by rising fact, HOLDS before LACKS; answers the row after them. */
static uint32_t put_literals(Writer *w, uint32_t at)
{
    const Task *t = w->source;
    State held = {{0, 0}}, lacked = {{0, 0}};
    for (; at < t->rows && (t->marks[at] == HOLDS || t->marks[at] == LACKS); at++)
        set(t->marks[at] == HOLDS ? &held : &lacked, value_at(t, at));
    for (uint32_t i = 0; i < 2; i++)
        for (uint64_t left = held.word[i] | lacked.word[i]; left != 0; left &= left - 1) {
            uint32_t bit = __builtin_ctzll(left);
            if (held.word[i] >> bit & 1) put(w, HOLDS, 64 * i + bit);
            if (lacked.word[i] >> bit & 1) put(w, LACKS, 64 * i + bit);
        }
    return at;
}

/* The facts of the rows of one mark, likewise. */
static uint32_t put_facts(Writer *w, uint32_t at, uint8_t mark)
{
    const Task *t = w->source;
    State facts = {{0, 0}};
    for (; at < t->rows && t->marks[at] == mark; at++) set(&facts, value_at(t, at));
    for (uint32_t i = 0; i < 2; i++)
        for (uint64_t left = facts.word[i]; left != 0; left &= left - 1) put(w, mark, 64 * i + __builtin_ctzll(left));
    return at;
}

/* All rows, into an area of their own, since their number is known at the end. */
static void put_rows(Writer *w)
{
    const Task *t = w->source;
    for (uint32_t at = 0; at < t->rows;)
        switch (t->marks[at]) {
        case HOLDS:
        case LACKS: at = put_literals(w, at); break;
        case ADD:
        case DELETE: at = put_facts(w, at, t->marks[at]); break;
        default: put(w, t->marks[at], value_at(t, at)); at++;
        }
}

uint32_t plain_spell(const uint8_t *file, size_t length, uint8_t *out, size_t room, uint64_t answer[8])
{
    Task t;
    uint8_t marks[MAX_ROWS], values[4 * MAX_ROWS];
    Writer w = {&t, marks, values, 0};
    memset(answer, 0, 64);
    if (!check(&t, file, length)) {
        answer[0] = t.place;
        return t.number;
    }
    put_rows(&w);
    size_t made = 8 + 5 * (size_t)w.at;
    if (room < made) return ROUTE_RULES_REFUSED_SHORT_OUTPUT;
    memcpy(out, file, 6);
    put_size(out + 6, w.at);
    memcpy(out + 8, marks, w.at);
    memcpy(out + 8 + w.at, values, 4 * (size_t)w.at);
    answer[1] = made;
    return 0;
}

/* ---- single */

/* An effect: where its clauses begin and where the last one ends, which is its first ADD or DELETE row if it has one, the row after
 * it, and how many choices of literals it has, of which 65 stands for all that are more than 64. */
typedef struct { uint32_t clauses, choices, next, at[MAX_ROWS / 2 + 1]; } Choices;

static void read_choices(const Task *t, uint32_t at, Choices *e)
{
    e->clauses = 0;
    e->choices = 1;
    for (at++; at < t->rows && t->marks[at] == CLAUSE;) {
        uint32_t first = at + 1;
        e->at[e->clauses++] = at;
        for (at = first; at < t->rows && (t->marks[at] == HOLDS || t->marks[at] == LACKS);) at++;
        e->choices *= at - first;
        if (e->choices > ROUTE_RULES_MAX_CHOICES) e->choices = ROUTE_RULES_MAX_CHOICES + 1;
    }
    e->at[e->clauses] = at;
    while (at < t->rows && (t->marks[at] == ADD || t->marks[at] == DELETE)) at++;
    e->next = at;
}

/* The effects of all choices; the first clause varies slowest, so of choice n a clause takes the literal n / (the choices of those
 * after it), over and over. */
static void put_choices(Writer *w, const Choices *e)
{
    for (uint32_t n = 0; n < e->choices; n++) {
        put(w, EFFECT, 0);
        for (uint32_t c = 0, after = e->choices; c < e->clauses; c++) {
            uint32_t literals = e->at[c + 1] - e->at[c] - 1, at = e->at[c] + 1;
            if (literals > 1) {
                after /= literals;
                at += n / after % literals;
            }
            put_single(w, w->source->marks[at], value_at(w->source, at));
        }
        copy(w, e->at[e->clauses], e->next);
    }
}

/* How many rows there are with single literals; or refused, at an effect with too many choices. */
static uint64_t count_singled(Task *t)
{
    Choices e;
    uint64_t rows = t->rows;
    for (uint32_t at = t->first_action; at < t->first_preference; at++) {
        if (t->marks[at] != EFFECT) continue;
        read_choices(t, at, &e);
        if (e.choices > ROUTE_RULES_MAX_CHOICES) return refuse(t, ROUTE_RULES_REFUSED_CHOICES, at);
        rows += (uint64_t)e.choices * (1 + 2 * e.clauses + e.next - e.at[e.clauses]) - (e.next - at);
        at = e.next - 1;
    }
    return rows;
}

static void put_singled(Writer *w)
{
    const Task *t = w->source;
    Choices e;
    uint32_t from = 0;
    for (uint32_t at = t->first_action; at < t->first_preference; at++) {
        if (t->marks[at] != EFFECT) continue;
        copy(w, from, at);
        read_choices(t, at, &e);
        put_choices(w, &e);
        from = e.next;
        at = e.next - 1;
    }
    copy(w, from, t->rows);
}

uint32_t plain_single(const uint8_t *file, size_t length, uint8_t *out, size_t room, uint64_t answer[8])
{
    Task t;
    uint64_t rows = 0;
    memset(answer, 0, 64);
    if (!check(&t, file, length) || (rows = count_singled(&t)) == 0) {
        answer[0] = t.place;
        return t.number;
    }
    if (rows > MAX_ROWS) return ROUTE_RULES_REFUSED_TRANSLATION_ROWS;
    if (room < 8 + 5 * rows) return ROUTE_RULES_REFUSED_SHORT_OUTPUT;
    Writer w = {&t, out + 8, out + 8 + rows, 0};
    memcpy(out, file, 6);
    put_size(out + 6, rows);
    put_singled(&w);
    answer[1] = 8 + 5 * rows;
    return 0;
}

/* ---- search */

enum { MAX_NODES = ROUTE_RULES_MAX_NODES, TABLE = 2 * MAX_NODES };

/* The nodes kept so far are those of the lent list. A slot of the table has a place and 1, or 0; `heap` has the open places, the next
 * one first, and `in_heap` where each stands. */
typedef struct {
    const Task *task;
    route_rules_node *nodes;
    uint32_t count, limit, waiting;
    uint16_t table[TABLE], heap[MAX_NODES], in_heap[MAX_NODES];
} Search;

/* FNV-1a of the state's bytes, word 0 first, each little-endian. */
static uint32_t hash(State s)
{
    uint32_t h = 2166136261u;
    for (int w = 0; w < 2; w++)
        for (int i = 0; i < 8; i++) h = (h ^ (s.word[w] >> 8 * i & 255)) * 16777619u;
    return h;
}

/* Whether place a is taken before place b: the cheaper one, on ties the one found earlier. */
static inline int sooner(const Search *q, uint16_t a, uint16_t b)
{
    return q->nodes[a].cost != q->nodes[b].cost ? q->nodes[a].cost < q->nodes[b].cost : a < b;
}

static inline void put_in_heap(Search *q, uint32_t at, uint16_t place)
{
    q->heap[at] = place;
    q->in_heap[place] = at;
}

/* A place that stands at `at` and may have to come earlier. */
static void rise(Search *q, uint32_t at, uint16_t place)
{
    for (; at > 0 && sooner(q, place, q->heap[(at - 1) / 2]); at = (at - 1) / 2) put_in_heap(q, at, q->heap[(at - 1) / 2]);
    put_in_heap(q, at, place);
}

static uint16_t take_next(Search *q)
{
    uint16_t next = q->heap[0], last = q->heap[--q->waiting];
    uint32_t at = 0;
    for (uint32_t child; (child = 2 * at + 1) < q->waiting; at = child) {
        if (child + 1 < q->waiting && sooner(q, q->heap[child + 1], q->heap[child])) child++;
        if (!sooner(q, q->heap[child], last)) break;
        put_in_heap(q, at, q->heap[child]);
    }
    if (q->waiting > 0) put_in_heap(q, at, last);
    return next;
}

/* A state that is met at this cost on this way; 0 where it is new and there is no room. */
static int meet(Search *q, State s, uint64_t cost, uint64_t way)
{
    uint32_t slot = hash(s) % TABLE;
    for (; q->table[slot] != 0; slot = (slot + 1) % TABLE) {
        route_rules_node *n = &q->nodes[q->table[slot] - 1];
        if (n->state[0] != s.word[0] || n->state[1] != s.word[1]) continue;
        if (cost < n->cost) {
            n->cost = cost;
            n->way = way;
            rise(q, q->in_heap[q->table[slot] - 1], q->table[slot] - 1);
        }
        return 1;
    }
    if (q->count == q->limit) return 0;
    q->nodes[q->count] = (route_rules_node){{s.word[0], s.word[1]}, cost, way};
    q->table[slot] = q->count + 1;
    rise(q, q->waiting++, q->count++);
    return 1;
}

static int expand(Search *q, uint16_t place)
{
    const Task *t = q->task;
    State s = {{q->nodes[place].state[0], q->nodes[place].state[1]}};
    uint64_t cost = q->nodes[place].cost, looked = 0;
    for (uint32_t k = 0; k < t->actions; k++) {
        uint32_t at = t->action[k], from = at + 1;
        if (!condition_true(t, &from, s, &looked)) continue;
        State next = after(t, from, t->action[k + 1], s, &looked);
        if (!meet(q, next, cost + value_at(t, at), (uint64_t)place * 256 + k)) return 0;
    }
    return 1;
}

/* The actions on the way to a place, read from the origins. */
static uint64_t put_steps(const Search *q, uint16_t place, uint8_t *plan)
{
    uint64_t steps = 0, left;
    for (uint64_t at = place; at != 0; at = q->nodes[at].way / 256) steps++;
    left = steps;
    for (uint64_t at = place; at != 0; at = q->nodes[at].way / 256) plan[--left] = q->nodes[at].way % 256;
    return steps;
}

static uint32_t searched(const Search *q, uint64_t outcome, uint64_t answer[8])
{
    answer[1] = outcome;
    answer[4] = q->count;
    return 0;
}

uint32_t plain_search(const uint8_t *file, size_t length, uint64_t limit, uint64_t *nodes, size_t node_words, uint8_t *plan,
                      uint64_t answer[8])
{
    Task t;
    Search q = {.task = &t, .nodes = (route_rules_node *)nodes, .limit = limit};
    memset(answer, 0, 64);
    if (!check(&t, file, length)) {
        answer[0] = t.place;
        return t.number;
    }
    if (t.preferences != 0) return ROUTE_RULES_REFUSED_PREFERENCES;
    if (limit == 0 || limit > MAX_NODES || limit > node_words / 4) return ROUTE_RULES_REFUSED_LIMIT;
    meet(&q, opening(&t), 0, 0);
    while (q.waiting > 0) {
        uint16_t place = take_next(&q);
        State s = {{q.nodes[place].state[0], q.nodes[place].state[1]}};
        uint64_t looked = 0;
        if (true_at(&t, t.goal + 1, s, &looked)) {
            answer[2] = q.nodes[place].cost;
            answer[3] = put_steps(&q, place, plan);
            return searched(&q, ROUTE_RULES_FOUND, answer);
        }
        if (!expand(&q, place)) return searched(&q, ROUTE_RULES_FULL, answer);
    }
    return searched(&q, ROUTE_RULES_NONE, answer);
}
