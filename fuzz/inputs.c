#include "inputs.h"

#include <string.h>

/* Choices. */
enum { AT_END_OF_PAGE = 1, MADE_FILE = 2, ANY_STEPS = 4, CUT_MET = 8, MADE_TEXT = 16, TASK_FILE = 32 };

typedef struct { const uint8_t *at; size_t left; } Data;

static uint8_t next(Data *d)
{
    if (d->left == 0) return 0;
    d->left--;
    return *d->at++;
}

/* Bytes as they stand, or of a long plan eight and the same again: known steps in most tasks, or any. */
static size_t make_plan(Data *d, uint8_t *plan, int any)
{
    uint8_t steps = next(d);
    size_t length = steps < 250 ? steps % 24 : ROUTE_RULES_MAX_STEPS - 2 + (size_t)(steps - 250), given = length < 24 ? length : 8;
    for (size_t i = 0; i < given; i++) plan[i] = any ? next(d) : next(d) % 16;
    for (size_t i = given; i < length; i++) plan[i] = plan[i % given];
    return length;
}

static void put_size(uint8_t *at, uint32_t size)
{
    at[0] = size & 255;
    at[1] = size >> 8;
}

/* ---- plans of a week */

/* A start near the first steps or near the end, and a length from there: none, up to the end, a step less or more, or any. */
static size_t start_from(uint8_t byte, size_t steps)
{
    if (byte < 128) return byte % 4;
    return byte < 224 ? steps + 1 - (steps > 1 ? byte % 4 : 0) : 257u * byte;
}

static size_t length_from(uint8_t byte, size_t start, size_t steps)
{
    size_t rest = start < steps ? steps - start : 0;
    if (byte < 32) return 0;
    if (byte < 192) return byte % 3 == 0 && rest > 0 ? rest - 1 : rest + (byte % 16 == 1);
    return byte < 248 ? byte % 8 : 257u * byte;
}

/* A count, and so many starts and lengths over the plan's steps, from eight pairs of bytes at most; perhaps with a higher byte in
 * the count, or cut. */
static size_t make_plans(Data *d, const uint8_t *plan, size_t steps, uint8_t *plans)
{
    uint8_t first = next(d), how = next(d), count = first % 68, given = count < 8 ? count : 8;
    uint8_t *starts = plans + 2, *lengths = starts + 2 * count;
    size_t made = 2 + 4 * (size_t)count;
    put_size(plans, count + (how % 16 == 15 ? 256 : 0));
    for (uint8_t i = 0; i < count; i++) {
        uint8_t from = i < given ? next(d) : 0, to = i < given ? next(d) : 0;
        size_t start = start_from(from, steps), length = length_from(to, start, steps);
        put_size(starts + 2 * i, i < given ? start : (size_t)(starts[2 * (i % given)] | starts[2 * (i % given) + 1] << 8));
        put_size(lengths + 2 * i, i < given ? length : (size_t)(lengths[2 * (i % given)] | lengths[2 * (i % given) + 1] << 8));
    }
    memcpy(plans + made, plan, steps);
    made += steps;
    if (how % 16 == 14) return how / 16 < made ? how / 16 : made;
    return how % 16 == 13 ? made - 1 : made;
}

/* ---- translated actions */

/* The plan, and after it end and closings in their order, each by a byte that says collect or forgo; or any numbers. */
static size_t make_list(const Input *in, const uint8_t *more, size_t count, uint8_t *list)
{
    uint8_t actions = in->file_length >= 8 ? in->file[2] : 0;
    memcpy(list, in->plan, in->steps);
    for (size_t i = 0; i < count; i++)
        list[in->steps + i] = more[i] >= 192 ? more[i] - 192 : i == 0 ? actions : actions + 2 * i - 1 + more[i] % 2;
    return in->steps + count;
}

/* ---- texts */

/* Lines that are none, or look as if they were none. */
static const char *const ODD[] = {"\n", "(a)\n", "(a01)\n", "(a00)\n", " (a1)\n", "(a1) \n", "(a1)\r\n", "(A1)\n", "(a1\n", "a1)\n",
                                  "(a-1)\n", "(a1)(a2)\n", "(a1) ;\n", "(a1;)\n", "\t(a1)\n", "(b1)\n", "()\n", "(a1)", ";",
                                  ";\n", ";;\n", "; (a1)\n", ";\r\n", "(a0)\n", "(a255)\n", "(a256)\n", "(a999)\n", "(a1000)\n",
                                  "(a4294967297)\n", "(a18446744073709551617)\n", "(a9999999999999999999999999999999999999)\n",
                                  "(a:)\n"};

typedef struct { uint8_t *at; size_t length; } Text;

static void add(Text *t, const char *bytes, size_t length)
{
    if (t->length + length > TEXT_ROOM) return;
    memcpy(t->at + t->length, bytes, length);
    t->length += length;
}

static void add_step(Text *t, unsigned step)
{
    char line[8] = "(a";
    size_t n = 2;
    if (step >= 100) line[n++] = '0' + step / 100;
    if (step >= 10) line[n++] = '0' + step / 10 % 10;
    line[n++] = '0' + step % 10;
    line[n++] = ')';
    line[n++] = '\n';
    add(t, line, n);
}

static void add_comment(Text *t, size_t length)
{
    add(t, ";(a1) and other bytes up to a newline", 1 + length);
    add(t, "\n", 1);
}

/* A line from one byte. */
static void add_line(Text *t, uint8_t byte)
{
    if (byte < 128)
        add_step(t, byte % 16);
    else if (byte < 160)
        add_step(t, 100 + 5 * (byte - 128u));
    else if (byte < 192)
        add_comment(t, byte - 160);
    else
        add(t, ODD[byte % 32], strlen(ODD[byte % 32]));
}

/* Lines up to so many steps, or a comment up to so many bytes: both sides of the limits. */
static void fill(Text *t, uint8_t how, size_t steps)
{
    if (how < 8)
        for (size_t to = ROUTE_RULES_MAX_STEPS - 3 + how; steps < to; steps++) add_step(t, how);
    else {
        size_t to = ROUTE_RULES_MAX_TEXT - 11 + how;
        if (t->length + 2 > to) return;
        memset(t->at + t->length, ';', to - t->length - 1);
        t->at[to - 1] = '\n';
        t->length = to;
    }
}

/* Bytes as they stand, or each a line; then perhaps filled up, or without the last byte, or both. */
static size_t make_text(Data *d, uint8_t *text, int made)
{
    Text t = {text, 0};
    uint8_t how = next(d), given = next(d);
    size_t steps = 0;
    for (; given > 0; given--) {
        uint8_t byte = next(d);
        char raw = (char)byte;
        if (made)
            add_line(&t, byte);
        else
            add(&t, &raw, 1);
        steps += made && byte < 160;
    }
    if (how % 16 == 15 || how % 16 == 13) fill(&t, how / 16, steps);
    if ((how % 16 == 14 || how % 16 == 13) && t.length > 0) t.length--;
    return t.length;
}

/* ---- files */

/* The value of a row made from one byte: mostly allowed for its mark. */
static uint32_t wide(uint8_t mark, uint8_t value)
{
    switch (mark) {
    case EFFECT: case CLAUSE: case GOAL: case SECOND: return value == 255;
    case HOLDS: case LACKS: case ADD: case DELETE: case START: return value;
    case STEPS: return value % 17;
    default:
        if (mark >= HARD_ALWAYS) return value == 255;
        return value * 16843009u; /* the byte four times: the greatest amount from 255 */
    }
}

/* Rows with the sizes that fit them. Each literal stands there so many times. */
typedef struct {
    uint8_t marks[ROUTE_RULES_MAX_ROWS];
    uint32_t values[ROUTE_RULES_MAX_ROWS];
    uint32_t facts, actions, preferences, rows, times;
} Rows;

static void add_row(Rows *r, uint8_t mark, uint32_t value)
{
    uint8_t soft = mark >= HARD_ALWAYS ? mark - HARD : mark;
    r->actions += mark == ACTION;
    r->preferences += soft >= ALWAYS && soft <= ALWAYS_WITHIN && soft != SECOND;
    for (uint32_t n = mark == HOLDS || mark == LACKS ? r->times : 1; n > 0 && r->rows < ROUTE_RULES_MAX_ROWS; n--) {
        r->marks[r->rows] = mark;
        r->values[r->rows++] = value;
    }
}

static size_t put_file(const Rows *r, uint8_t *file)
{
    put_size(file, r->facts);
    put_size(file + 2, r->actions);
    put_size(file + 4, r->preferences);
    put_size(file + 6, r->rows);
    memcpy(file + 8, r->marks, r->rows);
    memcpy(file + 8 + r->rows, r->values, 4 * (size_t)r->rows);
    return 8 + 5 * (size_t)r->rows;
}

/* Rows of two bytes, in any order. A byte changes one of the sizes, and one makes a long file of a short input. */
static size_t make_file(Data *d, uint8_t *file)
{
    static Rows r;
    r.facts = 1 + next(d) % 128;
    r.actions = r.preferences = r.rows = 0;
    uint8_t changed = next(d), repeat = next(d);
    r.times = repeat % 16 == 15 ? 1 + repeat : 1;
    while (d->left > 1) {
        uint8_t mark = next(d) % 36;
        add_row(&r, mark, wide(mark, next(d)));
    }
    if (changed % 16 == 15) *(changed & 16 ? &r.facts : changed & 32 ? &r.actions : &r.preferences) += 1;
    return put_file(&r, file);
}

static void add_condition(Data *d, Rows *r)
{
    for (uint8_t clauses = next(d) % 4; clauses > 0; clauses--) {
        add_row(r, CLAUSE, 0);
        for (uint8_t literals = 1 + next(d) % 3; literals > 0; literals--) {
            uint8_t literal = next(d);
            add_row(r, literal < 128 ? HOLDS : LACKS, literal % 128 % r->facts);
        }
    }
}

static void add_action(Data *d, Rows *r)
{
    add_row(r, ACTION, wide(ACTION, next(d)));
    add_condition(d, r);
    for (uint8_t effects = next(d) % 3; effects > 0; effects--) {
        add_row(r, EFFECT, 0);
        add_condition(d, r);
        uint8_t adds = next(d), deletes = adds / 4 % 4;
        for (adds %= 4; adds > 0; adds--) add_row(r, ADD, next(d) % r->facts);
        for (; deletes > 0; deletes--) add_row(r, DELETE, next(d) % r->facts);
    }
}

static void add_preference(Data *d, Rows *r)
{
    static const uint8_t KINDS[8] = {ALWAYS, SOMETIME, AT_END, AT_MOST_ONCE, SOMETIME_BEFORE, SOMETIME_AFTER, WITHIN, ALWAYS_WITHIN};
    uint8_t byte = next(d), kind = KINDS[byte % 8], mark = kind + (byte & 8 ? HARD : 0);
    add_row(r, mark, byte & 8 ? 0 : wide(mark, next(d)));
    if (kind >= WITHIN) add_row(r, STEPS, byte / 16);
    add_condition(d, r);
    if (kind != SOMETIME_BEFORE && kind != SOMETIME_AFTER && kind != ALWAYS_WITHIN) return;
    add_row(r, SECOND, 0);
    add_condition(d, r);
}

/* Rows in the order of a task, nearly always accepted. */
static size_t task_file(Data *d, uint8_t *file)
{
    static Rows r;
    uint8_t facts = next(d), start = next(d);
    r.facts = facts < 240 ? 1 + facts % 12 : 128 - facts % 16;
    r.actions = r.preferences = r.rows = 0;
    r.times = 1;
    for (uint32_t fact = 0; fact < 8 && fact < r.facts; fact++)
        if (start >> fact & 1) add_row(&r, START, fact);
    add_row(&r, GOAL, 0);
    add_condition(d, &r);
    for (uint8_t actions = next(d) % 8; actions > 0; actions--) add_action(d, &r);
    for (uint8_t preferences = next(d) % 8; preferences > 0; preferences--) add_preference(d, &r);
    return put_file(&r, file);
}

static size_t copy_file(Data *d, uint8_t *file)
{
    size_t length = d->left < FILE_ROOM ? d->left : FILE_ROOM;
    if (length > 0) memcpy(file, d->at, length);
    return length;
}

/* ---- amounts */

/* A cost from two bytes: small, any that is taken, on both sides of the limit, or with a bit in any place. */
static uint64_t make_cost(Data *d)
{
    uint8_t how = next(d), byte = next(d);
    switch (how % 4) {
    case 0: return byte;
    case 1: return byte * (uint64_t)(ROUTE_RULES_MAX_COST / 256) + how;
    case 2: return ROUTE_RULES_MAX_COST - 128 + (uint64_t)byte;
    default: return (uint64_t)byte << how / 4;
    }
}

/* Met preferences from three bytes: two as they stand, or with `cut` what the file has of them, and from the third a bit in any
 * place or none. */
static uint64_t make_met(const uint8_t three[3], int cut, const uint8_t *file, size_t length)
{
    uint64_t met = three[0] | (uint64_t)three[1] << 8;
    if (cut && length >= 8 && file[4] <= ROUTE_RULES_MAX_PREFERENCES) met &= ((uint64_t)1 << file[4]) - 1;
    return three[2] < 128 ? met | (uint64_t)1 << three[2] % 64 : met;
}

/* A limit from two bytes: few nodes, up to as many as are allowed, on both sides of that, or with a bit in any place. */
static uint64_t make_limit(Data *d)
{
    uint8_t how = next(d), byte = next(d);
    switch (how % 4) {
    case 0: return byte % 20;
    case 1: return 4 * (uint64_t)byte;
    case 2: return ROUTE_RULES_MAX_NODES - 4 + byte % 8;
    default: return 1 + ((uint64_t)byte << how / 4);
    }
}

/* Room for all nodes of a limit, for one less or one more, with words that make no node, or any room. */
static size_t make_node_words(Data *d, uint64_t limit)
{
    uint8_t byte = next(d);
    uint64_t needed = 4 * (limit > ROUTE_RULES_MAX_NODES + 4 ? ROUTE_RULES_MAX_NODES + 4 : limit);
    switch (byte % 4) {
    case 0: return needed;
    case 1: return needed > 0 ? needed - 1 : byte / 4;
    case 2: return needed + byte / 16;
    default: return (size_t)byte * 16;
    }
}

size_t room_for(uint8_t byte, size_t length)
{
    switch (byte % 4) {
    case 0: return length > 0 ? length - 1 : 0;
    case 1: return byte;
    default: return length + (byte % 4 == 2 ? 0 : 1 + byte / 64);
    }
}

void make_input(Input *in, const uint8_t *bytes, size_t size)
{
    Data d = {bytes, size};
    uint8_t choice = next(&d), three[3], more[MORE_STEPS];
    in->at_end = choice & AT_END_OF_PAGE;
    for (int i = 0; i < ROOMS; i++) in->rooms[i] = next(&d);
    in->limit = make_limit(&d);
    in->node_words = make_node_words(&d, in->limit);
    in->cost = make_cost(&d);
    for (int i = 0; i < 3; i++) three[i] = next(&d);
    in->steps = make_plan(&d, in->plan, choice & ANY_STEPS);
    in->text_length = make_text(&d, in->text, choice & MADE_TEXT);
    in->plans_length = make_plans(&d, in->plan, in->steps, in->plans);
    size_t count = next(&d) % (MORE_STEPS + 1);
    for (size_t i = 0; i < count; i++) more[i] = next(&d);
    in->file_length = (choice & TASK_FILE ? task_file : choice & MADE_FILE ? make_file : copy_file)(&d, in->file);
    in->list_length = make_list(in, more, count, in->list);
    in->met = make_met(three, choice & CUT_MET, in->file, in->file_length);
}
