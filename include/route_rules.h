/* Route rules: check a task file, write the one spelling of its task, translate a task with soft and hard rules into a classical
 * task, write it with single literals in its effects, write it as PDDL, search it for a cheapest plan, take the source part of what a
 * planner prints for it, walk a plan on a task, given as bytes or as planners print it, settle what it is worth, put up to 64 plans
 * into figures, and say what a half-made plan has already lost.
 *
 * Link libroute_rules.a: of a release by what pkg-config says of route_rules; in the repository `tools/staticlib` writes it
 * into crates/route_rules/out. Every function is proved: it answers every input as the definitions say (crates/words/specs/Numbers.antt has
 * the words of the answers), always returns, and touches no memory but the areas lent to it. Nothing is kept between calls, so several
 * threads may call at once.
 *
 * An area is a pointer and its length in bytes, or of a list of nodes in words. The pointer is never NULL, also where the length is
 * 0. The areas of one call do not overlap, unless both are only read.
 *
 * Every function returns 0, or the number of a refusal, and that is never 0 (crates/words/proofs/Done.antt). It writes
 * every word of the answer: where a call is refused `place` says where and all else is 0, where it is not `place` is 0. A
 * refusal leaves every other area as it was.
 * `spare` is 0. A later release may give a spare word a meaning, and adds functions and refusals, but moves nothing. */
#ifndef ROUTE_RULES_H
#define ROUTE_RULES_H

#include <stddef.h>
#include <stdint.h>

/* The version; the changelog says what each adds. */
#define ROUTE_RULES_VERSION "1.0.0"

#ifdef __cplusplus
extern "C" {
#endif

/* Sizes and amounts that are allowed. */
#define ROUTE_RULES_MAX_FACTS 128
#define ROUTE_RULES_MAX_ACTIONS 128
#define ROUTE_RULES_MAX_PREFERENCES 16
#define ROUTE_RULES_MAX_ROWS 12000
#define ROUTE_RULES_MAX_AMOUNT 4294967295 /* a cost, or a soft rule's weight: any 32-bit number; a hard rule's is 0 */
#define ROUTE_RULES_MAX_STEPS 2048 /* the steps of a plan; an area of this length is never too short for a source part */
#define ROUTE_RULES_MAX_DEADLINE 15 /* the steps of within and always-within */
#define ROUTE_RULES_MAX_COST 8796093020160 /* the cost of a plan: so many steps of the largest amount */
#define ROUTE_RULES_MAX_CHOICES 64 /* the choices of one effect, of a literal from each clause */
#define ROUTE_RULES_MAX_NODES 1024 /* the nodes that a search may keep */
#define ROUTE_RULES_MAX_FOUND 1023 /* the steps of a plan that a search finds */
#define ROUTE_RULES_MAX_PLANS 64 /* plans of a week */
#define ROUTE_RULES_MAX_TEXT 65536 /* bytes of a plan's text; an area of this length is never too short for one */

/* The length of the longest task file: an output area of this length is never too short. */
#define ROUTE_RULES_MAX_FILE (8 + 5 * ROUTE_RULES_MAX_ROWS)

/* An area of this length is never too short for a domain or a problem in PDDL. */
#define ROUTE_RULES_MAX_PDDL 262144

/* An area of this length is never too short for a report. */
#define ROUTE_RULES_MAX_REPORT 2048

/* That no area of these five lengths is refused by 9 or 14 is proved: never_too_short in crates/plan_text/proofs/Longest.antt,
 * crates/source/proofs/Longest.antt, crates/translation/proofs/Longest.antt, crates/spelling/proofs/Longest.antt,
 * crates/single_effects/proofs/Longest.antt and crates/pddl_text/proofs/Longest.antt, and Longest of report; that no accepted file is
 * longer than MAX_FILE: longest in crates/task/proofs/Longest.antt. */

/* Refusals, with their place. 1 to 3 are tried in order. Rows then go from the first; the first faulty row decides, 4 before
 * 5 on one row; 6 comes after all rows. 7 to 9 are translate's, 10 and 11 walk's, in that order, after 1 to 6.
 * Of a plan's text 12 comes after 6, and before 10 and 11; reading alone is refused by 12, then 10, then 9. The source part of a
 * text is refused by 1 to 8, then 12, 10, 11 and 9. 13 and 14 are
 * pddl's, in that order, after 1 to 6; 15 is settle's, after 1 to 6. A spelling is refused by 1 to 6, and then by 9; a report as
 * walk is, and then by 9; a task with single literals by 1 to 6, then 17, then 8, then 9; a search by 1 to 6, then 13, then 16. A
 * week is refused by 1 to 6, then by 18, then by 10 and 11 of its plans: the first such plan decides, 10 before 11 on one plan, and
 * the place is its number. What is lost is refused by 1 to 8 as a translation is, then by 10, then by 11 over the translated actions. */
enum {
    ROUTE_RULES_REFUSED_SHORT_FILE = 1,       /* under 8 bytes; 0 */
    ROUTE_RULES_REFUSED_SIZE = 2,             /* a size out of range; 0 */
    ROUTE_RULES_REFUSED_LENGTH = 3,           /* length not 8 + 5 * N; 0 */
    ROUTE_RULES_REFUSED_MARK = 4,             /* mark not possible after the rows before it: its row; or rows end inside a task: N */
    ROUTE_RULES_REFUSED_VALUE = 5,            /* value not allowed for its mark, START not rising; its row */
    ROUTE_RULES_REFUSED_COUNTS = 6,           /* ACTION rows not A, or preferences not P; N */
    ROUTE_RULES_REFUSED_TOO_MANY = 7,         /* F + 3 * P + 2 and the facts of deadlines (t + 1 for within t, t for always-within t)
                                               * over 128 together, or A + 2 * P + 1 over 128; 0 */
    ROUTE_RULES_REFUSED_TRANSLATION_ROWS = 8, /* translation, or task with single literals, over 12,000 rows; 0 */
    ROUTE_RULES_REFUSED_SHORT_OUTPUT = 9,     /* output area under the output's length; 0 */
    ROUTE_RULES_REFUSED_LONG_PLAN = 10,       /* plan over 2,048 steps; 0 */
    ROUTE_RULES_REFUSED_STEP = 11,            /* step not below A, for lost and source not below A + 2 * P + 1; the first such step */
    ROUTE_RULES_REFUSED_TEXT = 12,            /* text over 65,536 bytes: 0; or a line of another form or without a newline: that line */
    ROUTE_RULES_REFUSED_PREFERENCES = 13,     /* the task has preferences; 0 */
    ROUTE_RULES_REFUSED_SHORT_AREA = 14,      /* a domain or a problem longer than its area; 0 */
    ROUTE_RULES_REFUSED_ARGUMENT = 15,        /* cost over 8,796,093,020,160, or a met preference not below P; 0 */
    ROUTE_RULES_REFUSED_LIMIT = 16,           /* a limit of 0, over 1,024, or over the nodes that the lent list has room for; 0 */
    ROUTE_RULES_REFUSED_CHOICES = 17,         /* an effect with over 64 choices; the row of the first such EFFECT */
    ROUTE_RULES_REFUSED_PLANS = 18            /* a count of 0 or over 64, or a file of plans too short for its count, its arrays or a
                                               * plan it names; 0 */
};

/* The four sizes of an accepted file: F, A, P and N. */
typedef struct route_rules_checked {
    uint64_t place;
    uint64_t facts;
    uint64_t actions;
    uint64_t preferences;
    uint64_t rows;
    uint64_t spare[3];
} route_rules_checked;

/* Checks a task file: accepted with the four sizes, or refused by 1 to 6. */
uint32_t route_rules_check(const uint8_t *file, size_t file_length, route_rules_checked *answer);

/* The length of the translation in bytes, 8 + 5 * N of its own rows. */
typedef struct route_rules_translated {
    uint64_t place;
    uint64_t length;
    uint64_t spare[6];
} route_rules_translated;

/* Translates the task in a file into a classical task, which is itself a task file, with P 0. It fills the first `length`
 * bytes of the output and no others; or it is refused by 1 to 9, and the output is as it was.
 *
 * With A and P the source's, a solution is a list of numbers below A + 2 * P + 1 that solves the task written, and its source
 * part is its numbers below A, in their order. The source parts of the solutions are exactly the plans that solve the source
 * task, each of one solution only, and a solution's cost is its source part's metric. */
uint32_t route_rules_translate(const uint8_t *file, size_t file_length, uint8_t *out, size_t out_length,
                               route_rules_translated *answer);

/* The length of the spelling in bytes, 8 + 5 * N of its own rows. */
typedef struct route_rules_spelled {
    uint64_t place;
    uint64_t length;
    uint64_t spare[6];
} route_rules_spelled;

/* Writes the one spelling of the task in a file, which is itself a task file: in each clause the literals rise by fact, HOLDS before
 * LACKS of one fact, and repeats are dropped; so do the ADD rows of an effect, and its DELETE rows. Clauses and everything else keep
 * their order. It fills the first `length` bytes of the output and no others; or it is refused by 1 to 6 or 9, and the output is as
 * it was.
 *
 * Two accepted files have equal spellings exactly when their tasks differ only in that order and those repeats. A spelling has no
 * more rows than its source, and is its own spelling. On both every plan gets the same verdict, cost, metric and utility, and meets
 * the same preferences; the number of literals looked at may differ. */
uint32_t route_rules_spell(const uint8_t *file, size_t file_length, uint8_t *out, size_t out_length, route_rules_spelled *answer);

/* The length of the task with single literals in bytes, 8 + 5 * N of its own rows. */
typedef struct route_rules_singled {
    uint64_t place;
    uint64_t length;
    uint64_t spare[6];
} route_rules_singled;

/* Writes the task in a file with single literals in its effects, for planners that take no "or" there; it is itself a task file.
 * Each effect becomes several, one for each choice of a literal from every clause of its condition, the first clause varying slowest;
 * its ADD and DELETE rows stand in each of them. A literal that stands twice in a clause gives two choices, and a condition without
 * clauses has one. Everything else is copied. It fills the first `length` bytes of the output and no others; or it is refused by 1 to
 * 6, 17, 8 or 9, and the output is as it was.
 *
 * From every state each action leads where it led, at the same cost. So on both files every plan gets the same verdict, cost, metric
 * and utility, and meets the same preferences; the number of literals looked at may differ. */
uint32_t route_rules_single(const uint8_t *file, size_t file_length, uint8_t *out, size_t out_length, route_rules_singled *answer);

/* A verdict; 0 where the call was refused. Stopped comes before goal missed, and that before rule missed. */
enum {
    ROUTE_RULES_SOLVED = 1,      /* each step applies in turn, the goal holds in the last state, and each hard rule is met */
    ROUTE_RULES_STOPPED = 2,     /* a step doesn't apply */
    ROUTE_RULES_GOAL_MISSED = 3, /* each step applies in turn, and the goal doesn't hold in the last state */
    ROUTE_RULES_RULE_MISSED = 4  /* each step applies in turn, the goal holds in the last state, and a hard rule is missed */
};

/* A walked plan. Cost and met are 0 unless it is solved. `literals` comes with every verdict: in each state the preferences are
 * read in order, φ before ψ, then the step's precondition, then its effect conditions; in the last state the goal instead of
 * these. A clause is left at its first true literal and a condition at its first false clause. A stopped plan counts up to the
 * failing precondition, whose own reading is included. The number is at most (steps + 1) * N. */
typedef struct route_rules_walked {
    uint64_t place;
    uint64_t verdict;
    uint64_t step;     /* stopped: the first step that doesn't apply; rule missed: the lowest hard rule missed; else 0 */
    uint64_t cost;     /* the sum of the step costs */
    uint64_t met;      /* bit k is 1 where preference k is met */
    uint64_t literals; /* how many literals were looked at */
    uint64_t spare[2];
} route_rules_walked;

/* Walks a plan, one byte a step, on the task in a file: a verdict, or refused by 1 to 6, 10 or 11. */
uint32_t route_rules_walk(const uint8_t *file, size_t file_length, const uint8_t *plan, size_t plan_length,
                          route_rules_walked *answer);

/* What a cost and met preferences are worth. */
typedef struct route_rules_settled {
    uint64_t place;
    uint64_t metric; /* cost plus the weights of missed preferences */
    int64_t utility; /* the weights of met preferences minus cost */
    uint64_t spare[5];
} route_rules_settled;

/* Settles a cost and met preferences on the task in a file: those that walk gave, or any others. Preference k is met where bit k
 * of `met` is 1. Or it is refused by 1 to 6 or 15. */
uint32_t route_rules_settle(const uint8_t *file, size_t file_length, uint64_t cost, uint64_t met, route_rules_settled *answer);

/* The length in bytes of the plan read, or of the text written. */
typedef struct route_rules_length {
    uint64_t place;
    uint64_t length;
    uint64_t spare[6];
} route_rules_length;

/* Reads a plan as planners print it: a line `(aN)` for each step, N decimal without leading zeros, and comment lines, which
 * begin with a semicolon; a newline ends each line. It fills the first `length` bytes of the output, one for each step, and no
 * others; a number too large for a byte is read as 255. Or it is refused by 12, 10 or 9, and the output is as it was. Lines are
 * counted from 0, comments too. */
uint32_t route_rules_read_plan(const uint8_t *text, size_t text_length, uint8_t *out, size_t out_length,
                               route_rules_length *answer);

/* Writes a plan as such a text, without comments, into the first `length` bytes of the output and no others; or it is refused
 * by 10 or 9, and the output is as it was. */
uint32_t route_rules_write_plan(const uint8_t *plan, size_t plan_length, uint8_t *out, size_t out_length,
                                route_rules_length *answer);

/* Walks the plan in a text on the task in a file: a verdict, or refused by 1 to 6, 12, 10 or 11. */
uint32_t route_rules_walk_text(const uint8_t *file, size_t file_length, const uint8_t *text, size_t text_length,
                               route_rules_walked *answer);

/* Reads what a planner prints for the translation of the task in a file, as route_rules_read_plan does, and writes its source part: the
 * steps below A, in their order, one byte each, into the first `length` bytes of the output and no others. Or it is refused by 1 to 8 as
 * translating is, by 12 or 10, by 11 where a step is not below A + 2 * P + 1, or by 9, and the output is as it was.
 *
 * Where the printed list solves the task that route_rules_translate writes, the plan written solves the source task, and walking and
 * settling it gives a metric that is what the list costs. */
uint32_t route_rules_source(const uint8_t *file, size_t file_length, const uint8_t *text, size_t text_length, uint8_t *out,
                            size_t out_length, route_rules_length *answer);

/* The lengths in bytes of the two texts. */
typedef struct route_rules_texts {
    uint64_t place;
    uint64_t domain;
    uint64_t problem;
    uint64_t spare[5];
} route_rules_texts;

/* Writes a task without preferences, such as a translation, as PDDL: the domain into the first `domain` bytes of one area, the
 * problem into the first `problem` bytes of the other, and no other bytes. Facts are f0, f1 and so on, actions a0, a1 and so
 * on, in row order. Or it is refused by 1 to 6, 13 or 14, and both areas are as they were. Two accepted tasks without
 * preferences give equal texts exactly when their files are equal. */
uint32_t route_rules_pddl(const uint8_t *file, size_t file_length, uint8_t *domain, size_t domain_length, uint8_t *problem,
                          size_t problem_length, route_rules_texts *answer);

/* A node that a search keeps. */
typedef struct route_rules_node {
    uint64_t state[2]; /* fact n is held where bit n % 64 of word n / 64 is 1 */
    uint64_t cost;
    uint64_t way; /* origin * 256 + action: the action leads to the state from the node at the place origin */
} route_rules_node;

/* What a search comes to; 0 where the call was refused. */
enum {
    ROUTE_RULES_FOUND = 1, /* a cheapest plan */
    ROUTE_RULES_NONE = 2,  /* no plan solves, of any length */
    ROUTE_RULES_FULL = 3   /* there was no room for a further node */
};

/* Cost and steps are 0 unless a plan was found. */
typedef struct route_rules_searched {
    uint64_t place;
    uint64_t outcome;
    uint64_t cost;
    uint64_t steps; /* the plan's length */
    uint64_t nodes; /* how many nodes the list begins with */
    uint64_t spare[3];
} route_rules_searched;

/* Searches a task without preferences, such as a translation, for a cheapest plan. `nodes` has room for node_words / 4 nodes, four words
 * each as in route_rules_node; at most `limit` of them are kept. Or it is refused by 1 to 6, 13 or 16, and list and plan are as they
 * were.
 *
 * The open state of least cost is taken, the earliest found first on ties. If it meets the goal a plan is found; otherwise its actions
 * are tried by number. A state has one node, which keeps its place: a strictly cheaper way to it replaces cost, origin and action. A
 * new state that would be node limit + 1 ends the search at once: full. The opening state is the node at place 0, with cost, origin and
 * action 0; where no state is open none is answered.
 *
 * A plan found solves, and no list of any length that solves costs less; it is written into the first `steps` bytes of the plan, one
 * for each step. Where the answer is not full, none is answered exactly if no list solves. Of what route_rules_translate wrote, the
 * source steps of a plan found, those below A, have the least metric of all plans of the source, which is `cost`. The list then begins
 * with the nodes kept, in the order found: its first 4 * `nodes` words are written. No other bytes are written. */
uint32_t route_rules_search(const uint8_t *file, size_t file_length, uint64_t limit, uint64_t *nodes, size_t node_words,
                            uint8_t plan[ROUTE_RULES_MAX_FOUND], route_rules_searched *answer);

/* The length of the text in bytes. */
typedef struct route_rules_reported {
    uint64_t place;
    uint64_t length;
    uint64_t spare[6];
} route_rules_reported;

/* Writes the lines of program judge about a plan on the task in a file into the first `length` bytes of the output and no
 * others; or it is refused by 1 to 6, 10, 11 or 9, and the output is as it was. */
uint32_t route_rules_report(const uint8_t *file, size_t file_length, const uint8_t *plan, size_t plan_length, uint8_t *out,
                            size_t out_length, route_rules_reported *answer);

/* The figures of a week's plans: how many solve, and over those, of the metrics the least, the greatest, the sum and the mean, as
 * quotient and remainder, and for each preference how many meet it. Where no plan solves there are no such amounts, and all words
 * are 0. */
typedef struct route_rules_figures {
    uint64_t place;
    uint64_t solving;
    uint64_t least;
    uint64_t greatest;
    uint64_t sum;
    uint64_t mean;      /* sum = mean * solving + remainder */
    uint64_t remainder; /* below solving */
    uint64_t spare;
    uint64_t meeting[ROUTE_RULES_MAX_PREFERENCES]; /* from P on: 0 */
} route_rules_figures;

/* Puts up to 64 plans for the task in a file into figures, or is refused by 1 to 6, 18, 10 or 11. The plans stand in a file of their
 * own, little-endian: a count of 16 bits, then so many starts and so many lengths of 16 bits each, then the steps, a byte each, to
 * its end. A start counts from the first step byte; plans may overlap. Start and length together are at most the number of step
 * bytes, of a plan without steps too. A plan that misses a hard rule doesn't solve. */
uint32_t route_rules_week(const uint8_t *file, size_t file_length, const uint8_t *plans, size_t plans_length,
                          route_rules_figures *answer);

/* The verdict on a beginning of a translated run: this one, or ROUTE_RULES_STOPPED. */
enum {
    ROUTE_RULES_RUN = 1 /* each step applies in turn */
};

/* What is lost after a list of translated actions: the weights of the soft always, at-most-once and sometime-before rules that the
 * states left so far miss, and that are not closed yet. */
typedef struct route_rules_losses {
    uint64_t place;
    uint64_t verdict; /* run or stopped */
    uint64_t step;    /* stopped: the first step that doesn't apply; else 0 */
    uint64_t cost;    /* run: the cost so far; else 0 */
    uint64_t lost;    /* run: the lost weights; else 0 */
    uint64_t spare[3];
} route_rules_losses;

/* Follows a list of actions of the translation of the task in a file, one byte each: with A and P the source's, below A the source's
 * actions, A is end, A + 1 + 2 * k collects and A + 2 + 2 * k forgoes rule k. The list is any beginning of a run, or none, which is
 * stopped. No translation is made. Or it is refused by 1 to 8, 10 or 11.
 *
 * A lost rule is missed in every continuation that solves, and every solution of the translation that begins with this list costs at
 * least `cost` plus `lost`: a planner may take `lost` for a bound on what is still to pay. */
uint32_t route_rules_lost(const uint8_t *file, size_t file_length, const uint8_t *steps, size_t steps_length,
                          route_rules_losses *answer);

/* Every other answer has eight words, that of a week has 24; the functions write them all. */
typedef char route_rules_answers_have_their_words[sizeof(route_rules_checked) == 64 && sizeof(route_rules_translated) == 64 &&
                                                          sizeof(route_rules_spelled) == 64 && sizeof(route_rules_singled) == 64 &&
                                                          sizeof(route_rules_walked) == 64 && sizeof(route_rules_settled) == 64 &&
                                                          sizeof(route_rules_length) == 64 && sizeof(route_rules_texts) == 64 &&
                                                          sizeof(route_rules_reported) == 64 && sizeof(route_rules_searched) == 64 &&
                                                          sizeof(route_rules_node) == 32 && sizeof(route_rules_losses) == 64 &&
                                                          sizeof(route_rules_figures) == 192
                                                      ? 1
                                                      : -1];

#ifdef __cplusplus
}
#endif

#endif
