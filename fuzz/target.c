/* Calls every operation of the static library and holds every answer and every area to the C in bench/, whose compiled code also
 * guides the fuzzer and is watched by AddressSanitizer. */
#include "areas.h"
#include "inputs.h"

#include <stdio.h>
#include <stdlib.h>
#include <string.h>

enum {
    CHECK, TRANSLATE, SPELL, SINGLE, WALK, SETTLE, READ_PLAN, WRITE_PLAN, WALK_TEXT, SOURCE, PDDL, REPORT, WEEK, LOST, SEARCH,
    OPERATIONS, REFUSALS = 19
};

static const char *const NAMES[OPERATIONS] = {"check", "translate", "spell", "single", "walk", "settle", "read_plan",
                                              "write_plan", "walk_text", "source", "pddl", "report", "week", "lost", "search"};

/* The refusals of each operation, bit n for number n. */
#define OF_FILE 0x7eu
static const uint32_t ALLOWED[OPERATIONS] = {
    OF_FILE,
    OF_FILE | 1 << 7 | 1 << 8 | 1 << 9,
    OF_FILE | 1 << 9,
    OF_FILE | 1 << 17 | 1 << 8 | 1 << 9,
    OF_FILE | 1 << 10 | 1 << 11,
    OF_FILE | 1 << 15,
    1 << 12 | 1 << 10 | 1 << 9,
    1 << 10 | 1 << 9,
    OF_FILE | 1 << 12 | 1 << 10 | 1 << 11,
    OF_FILE | 1 << 7 | 1 << 8 | 1 << 12 | 1 << 10 | 1 << 11 | 1 << 9,
    OF_FILE | 1 << 13 | 1 << 14,
    OF_FILE | 1 << 10 | 1 << 11 | 1 << 9,
    OF_FILE | 1 << 18 | 1 << 10 | 1 << 11,
    OF_FILE | 1 << 7 | 1 << 8 | 1 << 10 | 1 << 11,
    OF_FILE | 1 << 13 | 1 << 16,
};

static Pages file_pages, plan_pages, plans_pages, list_pages, text_pages, printed_pages, made_pages, out_pages, other_pages, node_pages,
    found_pages, answer_pages;

/* Bytes that C wrote. */
static uint8_t expected[ROUTE_RULES_MAX_PDDL], expected_problem[ROUTE_RULES_MAX_PDDL];

static uint64_t expected_nodes[NODE_WORDS];

/* How often each operation gave each number, walk each verdict, search each outcome, a week figures or none, how often a list
 * stopped or ran, with nothing lost or something, and how often a source part was that of a list that does not solve the translation
 * or does. */
static uint64_t numbers[OPERATIONS][REFUSALS], verdicts[5], outcomes[4], weeks[2], losses[3], returned[2];

static void same_answer(int operation, uint32_t number, Area answer, uint32_t expected_number, const uint64_t *words)
{
    guarded(answer);
    if (number != expected_number || memcmp(answer.at, words, answer.length) != 0) fail("another answer");
    if (number >= REFUSALS || (number != 0 && !(ALLOWED[operation] >> number & 1))) fail("a refusal of another operation");
    numbers[operation][number]++;
    for (size_t i = 1; i < answer.length / 8; i++)
        if (number != 0 && words[i] != 0) fail("a refusal with more than a place");
    if (number == 0 && words[0] != 0) fail("an answer with a place");
}

static void try_check(Area file, int at_end)
{
    uint64_t words[8];
    Area answer = lend(answer_pages, 64, at_end);
    uint32_t number = route_rules_check(file.at, file.length, (route_rules_checked *)answer.at);
    same_answer(CHECK, number, answer, plain_check(file.at, file.length, words), words);
}

static uint32_t try_settle(Area file, uint64_t cost, uint64_t met, int at_end)
{
    uint64_t words[8];
    Area answer = lend(answer_pages, 64, at_end);
    uint32_t number = route_rules_settle(file.at, file.length, cost, met, (route_rules_settled *)answer.at);
    same_answer(SETTLE, number, answer, plain_settle(file.at, file.length, cost, met, words), words);
    return number;
}

/* Settle takes what a plan that solves costs and meets. */
static void try_walk(Area file, Area plan, int at_end)
{
    uint64_t words[8], tuned[8];
    Area answer = lend(answer_pages, 64, at_end);
    uint32_t number = route_rules_walk(file.at, file.length, plan.at, plan.length, (route_rules_walked *)answer.at);
    same_answer(WALK, number, answer, plain_walk(file.at, file.length, plan.at, plan.length, words), words);
    if (number != tuned_walk(file.at, file.length, plan.at, plan.length, tuned) || memcmp(words, tuned, 64) != 0)
        fail("the two walks in C differ");
    if (number == 0) verdicts[words[1]]++;
    if (words[5] > (plan.length + 1) * (file.length / 5)) fail("more literals than rows in all states");
    if (words[1] == ROUTE_RULES_SOLVED && try_settle(file, words[3], words[4], at_end) != 0) fail("a solution that is not settled");
}

/* Of a week with figures: quotient and remainder give back the sum, the mean is between the ends, no count is over the number that
 * solve. */
static void try_figures(const uint64_t words[24])
{
    uint64_t solving = words[1], mean = words[5];
    if (mean * solving + words[6] != words[4] || words[6] >= solving) fail("a mean that is none");
    if (words[2] > mean || mean > words[3]) fail("a mean outside the metrics");
    for (int k = 0; k < 16; k++)
        if (words[8 + k] > solving) fail("more plans meet a preference than solve");
}

static void try_week(Area file, Area plans, int at_end)
{
    uint64_t words[24];
    Area answer = lend(answer_pages, 192, at_end);
    uint32_t number = route_rules_week(file.at, file.length, plans.at, plans.length, (route_rules_figures *)answer.at);
    same_answer(WEEK, number, answer, plain_week(file.at, file.length, plans.at, plans.length, words), words);
    if (number != 0) return;
    weeks[words[1] != 0]++;
    if (words[1] != 0) try_figures(words);
}

/* Of a list that runs, so does each beginning; cost and lost weights together never fall. */
static void try_beginning(Area file, Area list, const uint64_t words[8])
{
    route_rules_losses before;
    if (list.length == 0) return;
    if (route_rules_lost(file.at, file.length, list.at, list.length - 1, &before) != 0 || before.verdict != ROUTE_RULES_RUN)
        fail("a list that runs, and not without its last step");
    if (before.cost > words[3] || before.cost + before.lost > words[3] + words[4]) fail("a bound that falls");
}

static void try_lost(Area file, Area list, int at_end)
{
    uint64_t words[8];
    Area answer = lend(answer_pages, 64, at_end);
    uint32_t number = route_rules_lost(file.at, file.length, list.at, list.length, (route_rules_losses *)answer.at);
    same_answer(LOST, number, answer, plain_lost(file.at, file.length, list.at, list.length, words), words);
    if (number != 0) return;
    losses[words[1] == ROUTE_RULES_STOPPED ? 0 : words[4] == 0 ? 1 : 2]++;
    if (words[1] == ROUTE_RULES_RUN) try_beginning(file, list, words);
}

/* Of some rooms the area holds every text: where both do, the library does not count the texts first. */
static void try_pddl(Area file, const Input *in)
{
    uint64_t words[8];
    uint8_t first = in->rooms[TO_DOMAIN], second = in->rooms[TO_PROBLEM];
    plain_pddl(file.at, file.length, expected, sizeof expected, expected_problem, sizeof expected_problem, words);
    Area domain = lend(out_pages, first >= 248 ? ROUTE_RULES_MAX_PDDL : room_for(first, words[1]), in->at_end);
    Area problem = lend(other_pages, second >= 192 ? ROUTE_RULES_MAX_PDDL : room_for(second, words[2]), in->at_end);
    Area answer = lend(answer_pages, 64, in->at_end);
    uint32_t number = route_rules_pddl(file.at, file.length, domain.at, domain.length, problem.at, problem.length,
                                       (route_rules_texts *)answer.at);
    same_answer(PDDL, number, answer,
                plain_pddl(file.at, file.length, expected, domain.length, expected_problem, problem.length, words), words);
    holds_output(domain, expected, words[1]);
    holds_output(problem, expected_problem, words[2]);
}

/* What a search that is not full found stays as it is with just as many nodes, and is full with one less. A plan found solves at the
 * cost that it has. */
static void try_found(Area file, Area nodes, Area plan, const uint64_t words[8])
{
    static uint64_t less_nodes[NODE_WORDS];
    static uint8_t less_plan[ROUTE_RULES_MAX_FOUND];
    route_rules_searched less;
    route_rules_walked walked;
    if (words[1] != ROUTE_RULES_FULL && words[4] > 1 &&
        (route_rules_search(file.at, file.length, words[4] - 1, less_nodes, NODE_WORDS, less_plan, &less) != 0 ||
         less.outcome != ROUTE_RULES_FULL || less.nodes != words[4] - 1))
        fail("a search that is not full with a node less than it needs");
    if (words[1] != ROUTE_RULES_FULL &&
        (route_rules_search(file.at, file.length, words[4], less_nodes, NODE_WORDS, less_plan, &less) != 0 ||
         memcmp(&less, words, sizeof less) != 0 || memcmp(less_nodes, nodes.at, 32 * words[4]) != 0))
        fail("another search with just as many nodes");
    if (words[1] == ROUTE_RULES_FOUND &&
        (route_rules_walk(file.at, file.length, plan.at, words[3], &walked) != 0 || walked.verdict != ROUTE_RULES_SOLVED ||
         walked.cost != words[2]))
        fail("a plan found that does not solve at its cost");
}

static void try_search(Area file, const Input *in)
{
    uint64_t words[8];
    Area nodes = lend(node_pages, 8 * in->node_words, in->at_end);
    Area plan = lend(found_pages, ROUTE_RULES_MAX_FOUND, in->at_end), answer = lend(answer_pages, 64, in->at_end);
    uint32_t number = route_rules_search(file.at, file.length, in->limit, (uint64_t *)nodes.at, in->node_words, plan.at,
                                         (route_rules_searched *)answer.at);
    same_answer(SEARCH, number, answer,
                plain_search(file.at, file.length, in->limit, expected_nodes, in->node_words, expected, words), words);
    holds_output(nodes, (const uint8_t *)expected_nodes, 32 * words[4]);
    holds_output(plan, expected, words[3]);
    if (number != 0) return;
    outcomes[words[1]]++;
    try_found(file, nodes, plan, words);
}

/* How many facts the deadlines of an accepted file have in its translation: as many as their steps, and one more for within. */
static uint64_t deadline_facts(const uint8_t *file, uint64_t rows)
{
    uint64_t count = 0;
    for (uint64_t i = 0; i < rows; i++) {
        uint8_t mark = file[8 + i];
        count += mark == STEPS ? file[8 + rows + 4 * i] : mark == WITHIN || mark == WITHIN + HARD;
    }
    return count;
}

/* A translation is accepted, its sizes follow from the source's, and it is written as PDDL. */
static void try_translation(Area file, Area translation, const Input *in)
{
    route_rules_checked from, to;
    if (route_rules_check(file.at, file.length, &from) != 0 || route_rules_check(translation.at, translation.length, &to) != 0)
        fail("a translation that is refused");
    if (to.facts != from.facts + 3 * from.preferences + 2 + deadline_facts(file.at, from.rows) ||
        to.actions != from.actions + 2 * from.preferences + 1 || to.preferences != 0 || translation.length != 8 + 5 * to.rows)
        fail("a translation of other sizes");
    try_pddl(translation, in);
    try_search(translation, in);
}

static void try_translate(Area file, const Input *in)
{
    static uint8_t tuned[ROUTE_RULES_MAX_FILE];
    uint64_t words[8], other[8];
    plain_translate(file.at, file.length, expected, ROUTE_RULES_MAX_FILE, words);
    Area out = lend(out_pages, room_for(in->rooms[TO_TRANSLATE], words[1]), in->at_end);
    Area answer = lend(answer_pages, 64, in->at_end);
    uint32_t number = route_rules_translate(file.at, file.length, out.at, out.length, (route_rules_translated *)answer.at);
    same_answer(TRANSLATE, number, answer, plain_translate(file.at, file.length, expected, out.length, words), words);
    holds_output(out, expected, words[1]);
    if (number != tuned_translate(file.at, file.length, tuned, out.length, other) || memcmp(words, other, 64) != 0 ||
        memcmp(expected, tuned, words[1]) != 0)
        fail("the two translations in C differ");
    if (number == 0) try_translation(file, lend_copy(made_pages, expected, words[1], in->at_end), in);
}

/* A spelling is accepted, with the sizes of its source but for the rows, of which it has no more; it is its own spelling; and a plan
 * is walked on it as on its source, but for the literals. */
static void try_spelling(Area file, Area plan, Area spelling, int at_end)
{
    route_rules_checked from, to;
    route_rules_spelled again;
    route_rules_walked on_source, on_spelling;
    Area out = lend(other_pages, spelling.length, at_end);
    if (route_rules_check(file.at, file.length, &from) != 0 || route_rules_check(spelling.at, spelling.length, &to) != 0)
        fail("a spelling that is refused");
    if (to.facts != from.facts || to.actions != from.actions || to.preferences != from.preferences || to.rows > from.rows)
        fail("a spelling of other sizes");
    if (route_rules_spell(spelling.at, spelling.length, out.at, out.length, &again) != 0 || again.length != out.length)
        fail("a spelling that is spelled in another way");
    holds_output(out, spelling.at, spelling.length);
    uint32_t number = route_rules_walk(file.at, file.length, plan.at, plan.length, &on_source);
    if (number != route_rules_walk(spelling.at, spelling.length, plan.at, plan.length, &on_spelling)) fail("another refusal of a plan");
    on_spelling.literals = on_source.literals;
    if (memcmp(&on_source, &on_spelling, sizeof on_source) != 0) fail("another verdict on a spelling");
}

static void try_spell(Area file, Area plan, const Input *in)
{
    uint64_t words[8];
    plain_spell(file.at, file.length, expected, sizeof expected, words);
    Area out = lend(out_pages, room_for(in->rooms[TO_SPELL], words[1]), in->at_end);
    Area answer = lend(answer_pages, 64, in->at_end);
    uint32_t number = route_rules_spell(file.at, file.length, out.at, out.length, (route_rules_spelled *)answer.at);
    same_answer(SPELL, number, answer, plain_spell(file.at, file.length, expected, out.length, words), words);
    holds_output(out, expected, words[1]);
    if (number == 0) try_spelling(file, plan, lend_copy(made_pages, expected, words[1], in->at_end), in->at_end);
}

/* The number of rows from row `at` on that have one of two marks. */
static uint32_t stretch(const uint8_t *marks, uint32_t at, uint32_t rows, uint8_t one, uint8_t other)
{
    uint32_t count = 0;
    while (at + count < rows && (marks[at + count] == one || marks[at + count] == other)) count++;
    return count;
}

/* Every clause of an effect's condition has one literal. */
static void single_literals(const uint8_t *marks, uint32_t rows)
{
    for (uint32_t i = 0, in_effect = 0; i < rows; i++) {
        in_effect = marks[i] == EFFECT || (in_effect && (marks[i] == CLAUSE || marks[i] == HOLDS || marks[i] == LACKS));
        if (in_effect && marks[i] == CLAUSE && stretch(marks, i + 1, rows, HOLDS, LACKS) != 1) fail("an effect with an or");
    }
}

/* A task with single literals is accepted, with the sizes of its source but for the rows; it is its own; and a plan is walked on it as
 * on its source, but for the literals. */
static void try_singled(Area file, Area plan, Area singled, int at_end)
{
    route_rules_checked from, to;
    route_rules_singled again;
    route_rules_walked on_source, on_singled;
    Area out = lend(other_pages, singled.length, at_end);
    if (route_rules_check(file.at, file.length, &from) != 0 || route_rules_check(singled.at, singled.length, &to) != 0)
        fail("a task with single literals that is refused");
    if (to.facts != from.facts || to.actions != from.actions || to.preferences != from.preferences)
        fail("a task with single literals of other sizes");
    single_literals(singled.at + 8, to.rows);
    if (route_rules_single(singled.at, singled.length, out.at, out.length, &again) != 0 || again.length != out.length)
        fail("a task with single literals that is not its own");
    holds_output(out, singled.at, singled.length);
    uint32_t number = route_rules_walk(file.at, file.length, plan.at, plan.length, &on_source);
    if (number != route_rules_walk(singled.at, singled.length, plan.at, plan.length, &on_singled)) fail("another refusal of a plan");
    on_singled.literals = on_source.literals;
    if (memcmp(&on_source, &on_singled, sizeof on_source) != 0) fail("another verdict with single literals");
}

static void try_single(Area file, Area plan, const Input *in)
{
    uint64_t words[8];
    plain_single(file.at, file.length, expected, sizeof expected, words);
    Area out = lend(out_pages, room_for(in->rooms[TO_SINGLE], words[1]), in->at_end);
    Area answer = lend(answer_pages, 64, in->at_end);
    uint32_t number = route_rules_single(file.at, file.length, out.at, out.length, (route_rules_singled *)answer.at);
    same_answer(SINGLE, number, answer, plain_single(file.at, file.length, expected, out.length, words), words);
    holds_output(out, expected, words[1]);
    if (number == 0) try_singled(file, plan, lend_copy(made_pages, expected, words[1], in->at_end), in->at_end);
}

static void try_report(Area file, Area plan, const Input *in)
{
    uint64_t words[8];
    plain_report(file.at, file.length, plan.at, plan.length, expected, sizeof expected, words);
    Area out = lend(out_pages, room_for(in->rooms[TO_REPORT], words[1]), in->at_end);
    Area answer = lend(answer_pages, 64, in->at_end);
    uint32_t number = route_rules_report(file.at, file.length, plan.at, plan.length, out.at, out.length,
                                         (route_rules_reported *)answer.at);
    same_answer(REPORT, number, answer,
                plain_report(file.at, file.length, plan.at, plan.length, expected, out.length, words), words);
    holds_output(out, expected, words[1]);
    if (words[1] > ROUTE_RULES_MAX_REPORT) fail("a report over its limit");
}

static void try_read_plan(Area text, uint8_t room, int at_end)
{
    uint64_t words[8];
    plain_read_plan(text.at, text.length, expected, sizeof expected, words);
    Area out = lend(out_pages, room_for(room, words[1]), at_end), answer = lend(answer_pages, 64, at_end);
    uint32_t number = route_rules_read_plan(text.at, text.length, out.at, out.length, (route_rules_length *)answer.at);
    same_answer(READ_PLAN, number, answer, plain_read_plan(text.at, text.length, expected, out.length, words), words);
    holds_output(out, expected, words[1]);
}

/* What was written is read as the plan. */
static void try_write_plan(Area plan, const Input *in)
{
    uint64_t words[8];
    plain_write_plan(plan.at, plan.length, expected, sizeof expected, words);
    Area out = lend(out_pages, room_for(in->rooms[TO_WRITE], words[1]), in->at_end);
    Area answer = lend(answer_pages, 64, in->at_end);
    uint32_t number = route_rules_write_plan(plan.at, plan.length, out.at, out.length, (route_rules_length *)answer.at);
    same_answer(WRITE_PLAN, number, answer, plain_write_plan(plan.at, plan.length, expected, out.length, words), words);
    holds_output(out, expected, words[1]);
    if (number != 0) return;
    Area back = lend(other_pages, plan.length, in->at_end);
    route_rules_length read;
    if (route_rules_read_plan(out.at, words[1], back.at, back.length, &read) != 0 || read.length != plan.length)
        fail("a plan that does not come back");
    holds_output(back, in->plan, in->steps);
}

static void try_walk_text(Area file, Area text, int at_end)
{
    uint64_t words[8];
    Area answer = lend(answer_pages, 64, at_end);
    uint32_t number = route_rules_walk_text(file.at, file.length, text.at, text.length, (route_rules_walked *)answer.at);
    same_answer(WALK_TEXT, number, answer, plain_walk_text(file.at, file.length, text.at, text.length, words), words);
}

/* Where the list in a text solves the translation, its source part solves, and its metric is what the list costs. */
static void try_returned(Area file, Area text, Area part)
{
    static uint8_t translation[ROUTE_RULES_MAX_FILE];
    route_rules_translated made;
    route_rules_walked paid, walked;
    route_rules_settled worth;
    if (route_rules_translate(file.at, file.length, translation, sizeof translation, &made) != 0)
        fail("a source part without a translation");
    if (route_rules_walk_text(translation, made.length, text.at, text.length, &paid) != 0) fail("a source part of an unknown list");
    returned[paid.verdict == ROUTE_RULES_SOLVED]++;
    if (paid.verdict != ROUTE_RULES_SOLVED) return;
    if (route_rules_walk(file.at, file.length, part.at, part.length, &walked) != 0 || walked.verdict != ROUTE_RULES_SOLVED)
        fail("a source part that does not solve");
    if (route_rules_settle(file.at, file.length, walked.cost, walked.met, &worth) != 0 || worth.metric != paid.cost)
        fail("a planner that paid something else");
}

static void try_source(Area file, Area text, const Input *in)
{
    uint64_t words[8];
    plain_source(file.at, file.length, text.at, text.length, expected, sizeof expected, words);
    Area out = lend(out_pages, room_for(in->rooms[TO_SOURCE], words[1]), in->at_end);
    Area answer = lend(answer_pages, 64, in->at_end);
    uint32_t number = route_rules_source(file.at, file.length, text.at, text.length, out.at, out.length,
                                         (route_rules_length *)answer.at);
    same_answer(SOURCE, number, answer,
                plain_source(file.at, file.length, text.at, text.length, expected, out.length, words), words);
    holds_output(out, expected, words[1]);
    if (number == 0) try_returned(file, text, lend_copy(other_pages, expected, words[1], in->at_end));
}

/* A list of translated actions as a planner prints it. */
static void try_printed(Area file, const Input *in)
{
    static uint8_t bytes[TEXT_ROOM];
    uint64_t words[8];
    if (plain_write_plan(in->list, in->list_length, bytes, sizeof bytes, words) != 0) return;
    Area printed = lend_copy(printed_pages, bytes, words[1], in->at_end);
    try_source(file, printed, in);
    unchanged(printed, bytes);
}

/* A line for each operation: how often each number came. */
static void tell(void)
{
    for (int i = 0; i < OPERATIONS; i++) {
        fprintf(stderr, "reached %s", NAMES[i]);
        for (int n = 0; n < REFUSALS; n++)
            if (n == 0 || ALLOWED[i] >> n & 1) fprintf(stderr, " %d:%llu", n, (unsigned long long)numbers[i][n]);
        fprintf(stderr, "\n");
    }
    fprintf(stderr, "reached verdicts");
    for (int n = 1; n < 5; n++) fprintf(stderr, " %d:%llu", n, (unsigned long long)verdicts[n]);
    fprintf(stderr, "\nreached outcomes");
    for (int n = 1; n < 4; n++) fprintf(stderr, " %d:%llu", n, (unsigned long long)outcomes[n]);
    fprintf(stderr, "\nreached weeks none:%llu figures:%llu\n", (unsigned long long)weeks[0], (unsigned long long)weeks[1]);
    fprintf(stderr, "reached lists stopped:%llu nothing:%llu lost:%llu\n", (unsigned long long)losses[0],
            (unsigned long long)losses[1], (unsigned long long)losses[2]);
    fprintf(stderr, "reached parts other:%llu paid:%llu\n", (unsigned long long)returned[0], (unsigned long long)returned[1]);
}

int LLVMFuzzerInitialize(int *count, char ***words)
{
    (void)count;
    (void)words;
    file_pages = pages(FILE_ROOM);
    plan_pages = pages(PLAN_ROOM);
    plans_pages = pages(PLANS_ROOM);
    list_pages = pages(LIST_ROOM);
    text_pages = pages(TEXT_ROOM);
    printed_pages = pages(TEXT_ROOM);
    made_pages = pages(ROUTE_RULES_MAX_FILE);
    out_pages = pages(ROUTE_RULES_MAX_PDDL);
    other_pages = pages(ROUTE_RULES_MAX_PDDL);
    node_pages = pages(8 * NODE_WORDS);
    found_pages = pages(ROUTE_RULES_MAX_FOUND);
    answer_pages = pages(192);
    atexit(tell);
    return 0;
}

int LLVMFuzzerTestOneInput(const uint8_t *bytes, size_t size)
{
    static Input in;
    make_input(&in, bytes, size);
    Area file = lend_copy(file_pages, in.file, in.file_length, in.at_end);
    Area plan = lend_copy(plan_pages, in.plan, in.steps, in.at_end);
    Area plans = lend_copy(plans_pages, in.plans, in.plans_length, in.at_end);
    Area list = lend_copy(list_pages, in.list, in.list_length, in.at_end);
    Area text = lend_copy(text_pages, in.text, in.text_length, in.at_end);
    try_check(file, in.at_end);
    try_walk(file, plan, in.at_end);
    try_settle(file, in.cost, in.met, in.at_end);
    try_week(file, plans, in.at_end);
    try_lost(file, list, in.at_end);
    try_pddl(file, &in);
    try_translate(file, &in);
    try_spell(file, plan, &in);
    try_single(file, plan, &in);
    try_report(file, plan, &in);
    try_search(file, &in);
    try_read_plan(text, in.rooms[TO_READ], in.at_end);
    try_write_plan(plan, &in);
    try_walk_text(file, text, in.at_end);
    try_source(file, text, &in);
    try_printed(file, &in);
    unchanged(file, in.file);
    unchanged(plan, in.plan);
    unchanged(plans, in.plans);
    unchanged(list, in.list);
    unchanged(text, in.text);
    return 0;
}
