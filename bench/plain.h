/* The operations in C; answers as in include/route_rules.h. */
#include "route_rules.h"

/* The marks; of a hard rule its kind's and HARD. */
enum { ACTION = 1, EFFECT, CLAUSE, HOLDS, LACKS, ADD, DELETE, GOAL, START, ALWAYS, SOMETIME, AT_END, AT_MOST_ONCE,
       SOMETIME_BEFORE, SOMETIME_AFTER, SECOND, WITHIN, ALWAYS_WITHIN, STEPS, HARD_ALWAYS = 26, HARD_SECOND = 32,
       HARD_ALWAYS_WITHIN = 34, HARD = 16 };

uint32_t plain_check(const uint8_t *file, size_t length, uint64_t answer[8]);
uint32_t plain_walk(const uint8_t *file, size_t length, const uint8_t *plan, size_t steps, uint64_t answer[8]);
uint32_t tuned_walk(const uint8_t *file, size_t length, const uint8_t *plan, size_t steps, uint64_t answer[8]);
uint32_t plain_settle(const uint8_t *file, size_t length, uint64_t cost, uint64_t met, uint64_t answer[8]);
uint32_t plain_week(const uint8_t *file, size_t length, const uint8_t *plans, size_t plans_length, uint64_t answer[24]);
uint32_t plain_lost(const uint8_t *file, size_t length, const uint8_t *steps, size_t count, uint64_t answer[8]);
uint32_t plain_translate(const uint8_t *file, size_t length, uint8_t *out, size_t room, uint64_t answer[8]);
uint32_t tuned_translate(const uint8_t *file, size_t length, uint8_t *out, size_t room, uint64_t answer[8]);
uint32_t plain_spell(const uint8_t *file, size_t length, uint8_t *out, size_t room, uint64_t answer[8]);
uint32_t plain_single(const uint8_t *file, size_t length, uint8_t *out, size_t room, uint64_t answer[8]);

uint32_t plain_search(const uint8_t *file, size_t length, uint64_t limit, uint64_t *nodes, size_t node_words, uint8_t *plan,
                      uint64_t answer[8]);

uint32_t plain_read_plan(const uint8_t *text, size_t length, uint8_t *out, size_t room, uint64_t answer[8]);
uint32_t plain_write_plan(const uint8_t *plan, size_t steps, uint8_t *out, size_t room, uint64_t answer[8]);
uint32_t plain_walk_text(const uint8_t *file, size_t length, const uint8_t *text, size_t text_length, uint64_t answer[8]);
uint32_t plain_source(const uint8_t *file, size_t length, const uint8_t *text, size_t text_length, uint8_t *out, size_t room,
                      uint64_t answer[8]);
uint32_t plain_pddl(const uint8_t *file, size_t length, uint8_t *domain, size_t domain_room, uint8_t *problem,
                    size_t problem_room, uint64_t answer[8]);
uint32_t plain_report(const uint8_t *file, size_t length, const uint8_t *plan, size_t steps, uint8_t *out, size_t room,
                      uint64_t answer[8]);
