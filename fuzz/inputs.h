/* What an execution lends, made from the fuzzer's bytes in this order: a byte of choices, nine of rooms, three of a limit and a
 * list of nodes, two of a cost, three of met preferences, the plan's length and steps, two bytes of the text and its bytes, two of a
 * week's plans with their starts and lengths, how many translated actions follow the plan and a byte of each, and the file. */
#include "plain.h"

enum { PLAN_ROOM = 4096, PLANS_ROOM = PLAN_ROOM + 512, MORE_STEPS = 24, LIST_ROOM = PLAN_ROOM + MORE_STEPS, TEXT_ROOM = ROUTE_RULES_MAX_TEXT + 16, FILE_ROOM = ROUTE_RULES_MAX_FILE + 5 };

/* Output areas, each with a room byte of its own. */
enum { TO_TRANSLATE, TO_SPELL, TO_REPORT, TO_READ, TO_WRITE, TO_DOMAIN, TO_PROBLEM, TO_SINGLE, TO_SOURCE, ROOMS };

typedef struct {
    int at_end; /* areas touch the page without access with their end */
    uint8_t rooms[ROOMS];
    uint64_t cost, met, limit;
    size_t node_words; /* lent for the list of nodes */
    uint8_t plan[PLAN_ROOM], text[TEXT_ROOM], plans[PLANS_ROOM], list[LIST_ROOM], file[FILE_ROOM];
    size_t steps, text_length, plans_length, list_length, file_length;
} Input;

void make_input(Input *in, const uint8_t *bytes, size_t size);

/* Up to some nodes more than a limit may be. */
enum { NODE_WORDS = 4 * (ROUTE_RULES_MAX_NODES + 8) };

/* The room for an output of this length: a byte short, any small one, just enough, or some bytes more. */
size_t room_for(uint8_t byte, size_t length);
