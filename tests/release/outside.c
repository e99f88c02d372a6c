/* A program outside the repository, over the release alone: it checks the belt and says which version it has. */
#include <route_rules.h>
#include <stdio.h>

int main(void)
{
    uint8_t belt[ROUTE_RULES_MAX_FILE];
    route_rules_checked sizes;
    FILE *file = fopen("task", "rb");
    if (file == NULL || route_rules_check(belt, fread(belt, 1, sizeof belt, file), &sizes) != 0) return 1;
    fclose(file);
    printf("%s: %d facts, %d actions, %d preferences, %d rows\n", ROUTE_RULES_VERSION, (int)sizes.facts, (int)sizes.actions,
           (int)sizes.preferences, (int)sizes.rows);
    return 0;
}
