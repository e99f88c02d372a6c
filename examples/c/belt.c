/* Checks the belt's task, translates it, writes the translation as PDDL and with single literals in its effects, searches it for a
 * cheapest plan, spells the task, walks a plan on it, as bytes and as text, takes the source part of a translated one, settles
 * what it is worth, puts a week of plans into figures, says what beginnings of translated runs have lost, and prints the answers:
 * belt TASK PLAN. */
#include "route_rules.h"

#include <inttypes.h>
#include <stdio.h>
#include <stdlib.h>
#include <string.h>

static size_t read_file(const char *name, uint8_t *area, size_t room)
{
    FILE *file = fopen(name, "rb");
    if (file == NULL) {
        fprintf(stderr, "no file %s\n", name);
        exit(1);
    }
    size_t length = fread(area, 1, room, file);
    fclose(file);
    return length;
}

static void refused(const char *operation, uint32_t number, uint64_t place)
{
    printf("%s: refused %" PRIu32 " %" PRIu64 "\n", operation, number, place);
}

static void check(const uint8_t *file, size_t length)
{
    route_rules_checked answer;
    uint32_t number = route_rules_check(file, length, &answer);
    if (number != 0)
        refused("check", number, answer.place);
    else
        printf("check: facts %" PRIu64 " actions %" PRIu64 " preferences %" PRIu64 " rows %" PRIu64 "\n", answer.facts,
               answer.actions, answer.preferences, answer.rows);
}

/* Prints the problem in PDDL, and how long the domain is. */
static void pddl(const uint8_t *file, size_t length)
{
    static uint8_t domain[ROUTE_RULES_MAX_PDDL], problem[ROUTE_RULES_MAX_PDDL];
    route_rules_texts answer;
    uint32_t number = route_rules_pddl(file, length, domain, sizeof domain, problem, sizeof problem, &answer);
    if (number != 0) {
        refused("pddl", number, answer.place);
        return;
    }
    printf("pddl: domain %" PRIu64 " bytes, problem:\n", answer.domain);
    fwrite(problem, 1, answer.problem, stdout);
}

/* Says how long the task with single literals is. */
static void single(const uint8_t *file, size_t length, size_t room)
{
    static uint8_t out[ROUTE_RULES_MAX_FILE];
    route_rules_singled answer;
    uint32_t number = route_rules_single(file, length, out, room, &answer);
    if (number != 0)
        refused("single", number, answer.place);
    else
        printf("single: %" PRIu64 " bytes\n", answer.length);
}

/* Prints a cheapest plan, and how the last node came about. */
static void search(const uint8_t *file, size_t length, uint64_t limit)
{
    static route_rules_node nodes[ROUTE_RULES_MAX_NODES];
    static uint8_t plan[ROUTE_RULES_MAX_FOUND];
    static const char *const outcomes[] = {"", "found", "none", "full"};
    route_rules_searched answer;
    uint32_t number = route_rules_search(file, length, limit, (uint64_t *)nodes, 4 * ROUTE_RULES_MAX_NODES, plan, &answer);
    if (number != 0) {
        refused("search", number, answer.place);
        return;
    }
    printf("search: %s", outcomes[answer.outcome]);
    if (answer.outcome == ROUTE_RULES_FOUND) printf(" cost %" PRIu64 " steps", answer.cost);
    for (uint64_t i = 0; i < answer.steps; i++) printf(" %d", plan[i]);
    const route_rules_node *last = &nodes[answer.nodes - 1];
    printf(", nodes %" PRIu64 ", the last from %" PRIu64 " by %" PRIu64 "\n", answer.nodes, last->way / 256, last->way % 256);
}

static void translate(const uint8_t *file, size_t length)
{
    static uint8_t out[ROUTE_RULES_MAX_FILE];
    route_rules_translated answer;
    uint32_t number = route_rules_translate(file, length, out, sizeof out, &answer);
    if (number != 0) {
        refused("translate", number, answer.place);
        return;
    }
    printf("translate: %" PRIu64 " bytes\n", answer.length);
    check(out, answer.length);
    single(out, answer.length, ROUTE_RULES_MAX_FILE); /* every clause of an effect has one literal already */
    single(out, answer.length, answer.length - 1);    /* an area that is a byte short */
    pddl(out, answer.length);
    search(out, answer.length, ROUTE_RULES_MAX_NODES);
    search(out, answer.length, 2);                         /* full */
    search(out, answer.length, ROUTE_RULES_MAX_NODES + 1); /* no such limit */
}

/* Says whether the file is its own spelling. */
static void spell(const uint8_t *file, size_t length, size_t room)
{
    static uint8_t out[ROUTE_RULES_MAX_FILE];
    route_rules_spelled answer;
    uint32_t number = route_rules_spell(file, length, out, room, &answer);
    if (number != 0)
        refused("spell", number, answer.place);
    else
        printf("spell: %" PRIu64 " bytes, %s\n", answer.length,
               answer.length == length && memcmp(out, file, length) == 0 ? "the same file" : "another file");
}

static void walked(const char *operation, uint32_t number, const route_rules_walked *answer)
{
    if (number != 0) {
        refused(operation, number, answer->place);
        return;
    }
    printf("%s: ", operation);
    switch (answer->verdict) {
    case ROUTE_RULES_SOLVED:
        printf("solved cost %" PRIu64 " met", answer->cost);
        for (int k = 0; k < ROUTE_RULES_MAX_PREFERENCES; k++)
            if (answer->met >> k & 1) printf(" %d", k);
        break;
    case ROUTE_RULES_STOPPED: printf("stopped %" PRIu64, answer->step); break;
    case ROUTE_RULES_GOAL_MISSED: printf("goal missed"); break;
    case ROUTE_RULES_RULE_MISSED: printf("rule missed %" PRIu64, answer->step); break;
    }
    printf(" literals %" PRIu64 "\n", answer->literals);
}

static void settle(const uint8_t *file, size_t length, uint64_t cost, uint64_t met)
{
    route_rules_settled answer;
    uint32_t number = route_rules_settle(file, length, cost, met, &answer);
    if (number != 0)
        refused("settle", number, answer.place);
    else
        printf("settle: metric %" PRIu64 " utility %" PRId64 "\n", answer.metric, answer.utility);
}

/* Cost and met preferences first; then, of a plan that solves, what they are worth. */
static void walk(const uint8_t *file, size_t length, const uint8_t *plan, size_t steps)
{
    route_rules_walked answer;
    uint32_t number = route_rules_walk(file, length, plan, steps, &answer);
    walked("walk", number, &answer);
    if (number == 0 && answer.verdict == ROUTE_RULES_SOLVED) settle(file, length, answer.cost, answer.met);
}

static void write_plan(const uint8_t *plan, size_t steps)
{
    static uint8_t text[ROUTE_RULES_MAX_TEXT];
    route_rules_length answer;
    uint32_t number = route_rules_write_plan(plan, steps, text, sizeof text, &answer);
    if (number != 0) {
        refused("write_plan", number, answer.place);
        return;
    }
    printf("write_plan: ");
    fwrite(text, 1, answer.length, stdout);
}

/* Prints the steps of a plan that was read. */
static void steps_of(const char *operation, uint32_t number, const uint8_t *plan, const route_rules_length *answer)
{
    if (number != 0) {
        refused(operation, number, answer->place);
        return;
    }
    printf("%s:", operation);
    for (uint64_t i = 0; i < answer->length; i++) printf(" %d", plan[i]);
    printf("\n");
}

static void read_plan(const char *text, size_t room)
{
    static uint8_t plan[ROUTE_RULES_MAX_STEPS];
    route_rules_length answer;
    uint32_t number = route_rules_read_plan((const uint8_t *)text, strlen(text), plan, room, &answer);
    steps_of("read_plan", number, plan, &answer);
}

/* From what a planner prints for the translation back to a plan of the source. */
static void source(const uint8_t *file, size_t length, const char *text)
{
    static uint8_t plan[ROUTE_RULES_MAX_STEPS];
    route_rules_length answer;
    uint32_t number = route_rules_source(file, length, (const uint8_t *)text, strlen(text), plan, sizeof plan, &answer);
    steps_of("source", number, plan, &answer);
}

static void walk_text(const uint8_t *file, size_t length, const char *text)
{
    route_rules_walked answer;
    uint32_t number = route_rules_walk_text(file, length, (const uint8_t *)text, strlen(text), &answer);
    walked("walk_text", number, &answer);
}

static void report(const uint8_t *file, size_t length, const uint8_t *plan, size_t steps)
{
    static uint8_t text[ROUTE_RULES_MAX_REPORT];
    route_rules_reported answer;
    uint32_t number = route_rules_report(file, length, plan, steps, text, sizeof text, &answer);
    if (number != 0)
        refused("report", number, answer.place);
    else
        fwrite(text, 1, answer.length, stdout);
}

/* The figures of the plans that solve; where none does there are none. */
static void week(const uint8_t *file, size_t length, const uint8_t *plans, size_t plans_length)
{
    route_rules_figures answer;
    uint32_t number = route_rules_week(file, length, plans, plans_length, &answer);
    if (number != 0) {
        refused("week", number, answer.place);
        return;
    }
    printf("week: solving %" PRIu64, answer.solving);
    if (answer.solving > 0) {
        printf(" least %" PRIu64 " greatest %" PRIu64 " sum %" PRIu64 " mean %" PRIu64 " remainder %" PRIu64 " meeting", answer.least,
               answer.greatest, answer.sum, answer.mean, answer.remainder);
        for (int k = 0; k < 2; k++) printf(" %" PRIu64, answer.meeting[k]); /* the belt has two preferences */
    }
    printf("\n");
}

/* Cost and lost weights together: no solution that begins so costs less. */
static void lost(const uint8_t *file, size_t length, const char *steps, size_t count)
{
    route_rules_losses answer;
    uint32_t number = route_rules_lost(file, length, (const uint8_t *)steps, count, &answer);
    if (number != 0)
        refused("lost", number, answer.place);
    else if (answer.verdict == ROUTE_RULES_STOPPED)
        printf("lost: stopped %" PRIu64 "\n", answer.step);
    else
        printf("lost: cost %" PRIu64 " lost %" PRIu64 "\n", answer.cost, answer.lost);
}

int main(int count, char **words)
{
    /* Two plans that overlap, 0 1 0 and its last step, and one without steps, which misses the goal: starts, lengths, steps. */
    static const uint8_t plans[] = {3, 0, 0, 0, 2, 0, 3, 0, 3, 0, 1, 0, 0, 0, 0, 1, 0};
    /* A byte more than the longest accepted file and plan: a longer one is refused as its whole would be. */
    static uint8_t file[ROUTE_RULES_MAX_FILE + 1], plan[ROUTE_RULES_MAX_STEPS + 1];
    if (count != 3) return 2;
    size_t length = read_file(words[1], file, sizeof file);
    size_t steps = read_file(words[2], plan, sizeof plan);

    check(file, length);
    translate(file, length);
    pddl(file, length);                            /* a task with preferences */
    search(file, length, ROUTE_RULES_MAX_NODES); /* likewise */
    spell(file, length, ROUTE_RULES_MAX_FILE);
    spell(file, length, length - 1); /* an area that is a byte short */
    walk(file, length, plan, steps);
    walk(file, length, plan, 0);                        /* the goal is missed */
    walk(file, length, (const uint8_t *)"\0\1\1\0", 4); /* utility below 0 */
    walk(file, length, (const uint8_t *)"\2", 1);       /* no action 2 */
    settle(file, length, 3, 3);                         /* if preference 0 were met as well */
    settle(file, length, 3, 4);                         /* no preference 2 */
    settle(file, length, ROUTE_RULES_MAX_COST + 1, 0);  /* more than any plan costs */
    check(file, length - 1);                            /* a byte is missing */

    write_plan(plan, steps);
    read_plan("; from a planner\n(a0)\n(a1)\n(a300)\n", ROUTE_RULES_MAX_STEPS); /* too large for a byte is 255 */
    read_plan("; from a planner\n(a0)\n(a1)\n", 1);                           /* an area that is a byte short */
    walk_text(file, length, "; from a planner\n(a0)\n");
    walk_text(file, length, "; from a planner\n(a00)\n"); /* line 1 has a leading zero */
    source(file, length, "(a0)\n(a2)\n(a4)\n(a5)\n; cost = 8\n");
    source(file, length, "(a0)\n(a7)\n"); /* no translated action 7 */

    report(file, length, plan, steps);
    report(file, length, (const uint8_t *)"\2", 1); /* no action 2 */

    week(file, length, plans, sizeof plans);
    week(file, length, (const uint8_t *)"\1\0\0\0\0\0", 6); /* the goal is missed */
    week(file, length, plans, sizeof plans - 1);            /* a step is missing */

    lost(file, length, "", 0);
    lost(file, length, "\0", 1);       /* the opening state, which has amber on the belt, is left */
    lost(file, length, "\0\2\4\5", 4); /* the solution: end, forgo 0, collect 1 */
    lost(file, length, "\0\2\3", 3);   /* rule 0 is missed, and can't be collected */
    lost(file, length, "\0\7", 2);     /* no translated action 7 */
    return 0;
}
