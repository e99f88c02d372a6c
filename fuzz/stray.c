/* Stands in for the library when the fuzzer itself is tried: the C of bench/, with one stray access or word, by STRAY. */
#include "plain.h"

#include <string.h>

#define WORDS(answer) ((uint64_t *)(answer))

static volatile uint8_t seen;

uint32_t route_rules_check(const uint8_t *file, size_t file_length, route_rules_checked *answer)
{
    if (STRAY == 1) seen = file[file_length]; /* reads past the file */
    return plain_check(file, file_length, WORDS(answer));
}

uint32_t route_rules_translate(const uint8_t *file, size_t file_length, uint8_t *out, size_t out_length,
                               route_rules_translated *answer)
{
    uint32_t number = plain_translate(file, file_length, out, out_length, WORDS(answer));
    if (STRAY == 2 && number == 0 && answer->length < out_length) out[answer->length] = 0; /* writes after the output */
    if (STRAY == 3 && number == 9 && out_length > 0) out[out_length - 1] = 0;              /* writes on a refusal */
    return number;
}

uint32_t route_rules_spell(const uint8_t *file, size_t file_length, uint8_t *out, size_t out_length, route_rules_spelled *answer)
{
    uint32_t number = plain_spell(file, file_length, out, out_length, WORDS(answer));
    if (STRAY == 11 && number == 9 && out_length > 0) out[0] = 0; /* writes on a refusal */
    if (STRAY == 12 && number == 0 && answer->length < out_length) out[out_length - 1] = 0; /* writes after the output */
    return number;
}

uint32_t route_rules_single(const uint8_t *file, size_t file_length, uint8_t *out, size_t out_length, route_rules_singled *answer)
{
    uint32_t number = plain_single(file, file_length, out, out_length, WORDS(answer));
    if (STRAY == 13 && number == 17 && out_length > 0) out[0] = 0; /* writes on a refusal */
    if (STRAY == 14 && number == 0 && answer->length < out_length) out[answer->length] = 0; /* writes after the output */
    return number;
}

uint32_t route_rules_walk(const uint8_t *file, size_t file_length, const uint8_t *plan, size_t plan_length,
                          route_rules_walked *answer)
{
    uint64_t words[8];
    uint32_t number = plain_walk(file, file_length, plan, plan_length, words);
    memcpy(answer, words, STRAY == 4 ? 56 : 64); /* leaves the last word as it was */
    return number;
}

uint32_t route_rules_settle(const uint8_t *file, size_t file_length, uint64_t cost, uint64_t met, route_rules_settled *answer)
{
    uint32_t number = plain_settle(file, file_length, cost, met, WORDS(answer));
    if (STRAY == 5 && number == 15) answer->metric = 1; /* a refusal with a word more */
    return number;
}

uint32_t route_rules_read_plan(const uint8_t *text, size_t text_length, uint8_t *out, size_t out_length, route_rules_length *answer)
{
    uint32_t number = plain_read_plan(text, text_length, out, out_length, WORDS(answer));
    if (STRAY == 6 && number == 12 && out_length > 0) out[0] = 0; /* writes on a refusal */
    return number;
}

uint32_t route_rules_write_plan(const uint8_t *plan, size_t plan_length, uint8_t *out, size_t out_length,
                                route_rules_length *answer)
{
    uint32_t number = plain_write_plan(plan, plan_length, out, out_length, WORDS(answer));
    if (STRAY == 7 && number == 0) out[answer->length] = 0; /* writes past an exact area */
    return number;
}

uint32_t route_rules_walk_text(const uint8_t *file, size_t file_length, const uint8_t *text, size_t text_length,
                               route_rules_walked *answer)
{
    if (STRAY == 8) seen = text[-1]; /* reads before the text */
    return plain_walk_text(file, file_length, text, text_length, WORDS(answer));
}

uint32_t route_rules_source(const uint8_t *file, size_t file_length, const uint8_t *text, size_t text_length, uint8_t *out,
                            size_t out_length, route_rules_length *answer)
{
    uint32_t number = plain_source(file, file_length, text, text_length, out, out_length, WORDS(answer));
    if (STRAY == 25) seen = text[text_length];                                              /* reads past the text */
    if (STRAY == 26 && number == 11 && out_length > 0) out[0] = 0;                          /* writes on a refusal */
    if (STRAY == 27 && number == 0 && answer->length < out_length) out[answer->length] = 0; /* writes after the part */
    return number;
}

uint32_t route_rules_pddl(const uint8_t *file, size_t file_length, uint8_t *domain, size_t domain_length, uint8_t *problem,
                          size_t problem_length, route_rules_texts *answer)
{
    uint32_t number = plain_pddl(file, file_length, domain, domain_length, problem, problem_length, WORDS(answer));
    if (STRAY == 9 && number == 14 && domain_length > 0) domain[0] = '('; /* writes one text where the other does not fit */
    return number;
}

uint32_t route_rules_search(const uint8_t *file, size_t file_length, uint64_t limit, uint64_t *nodes, size_t node_words,
                            uint8_t plan[ROUTE_RULES_MAX_FOUND], route_rules_searched *answer)
{
    uint32_t number = plain_search(file, file_length, limit, nodes, node_words, plan, WORDS(answer));
    if (STRAY == 15 && number == 16 && node_words > 0) nodes[0] = 0; /* writes on a refusal */
    if (STRAY == 16 && number == 0 && 4 * answer->nodes < node_words) nodes[4 * answer->nodes] = 0; /* writes after the nodes */
    if (STRAY == 17 && number == 0 && answer->steps < ROUTE_RULES_MAX_FOUND) plan[answer->steps] = 0; /* writes after the plan */
    return number;
}

uint32_t route_rules_report(const uint8_t *file, size_t file_length, const uint8_t *plan, size_t plan_length, uint8_t *out,
                            size_t out_length, route_rules_reported *answer)
{
    uint32_t number = plain_report(file, file_length, plan, plan_length, out, out_length, WORDS(answer));
    if (STRAY == 10 && plan_length > 0) ((uint8_t *)(uintptr_t)plan)[0] ^= 1; /* writes what is only read */
    return number;
}

uint32_t route_rules_week(const uint8_t *file, size_t file_length, const uint8_t *plans, size_t plans_length,
                          route_rules_figures *answer)
{
    uint64_t words[24];
    uint32_t number = plain_week(file, file_length, plans, plans_length, words);
    if (STRAY == 21 && plans_length > 0) seen = plans[plans_length]; /* reads past the plans */
    memcpy(answer, words, STRAY == 22 ? 184 : 192);                  /* leaves the last word as it was */
    return number;
}

uint32_t route_rules_lost(const uint8_t *file, size_t file_length, const uint8_t *steps, size_t steps_length,
                          route_rules_losses *answer)
{
    uint32_t number = plain_lost(file, file_length, steps, steps_length, WORDS(answer));
    if (STRAY == 23) seen = steps[-1];                      /* reads before the list */
    if (STRAY == 24 && answer->verdict == 2) answer->cost = 1; /* stopped, with a cost */
    return number;
}
