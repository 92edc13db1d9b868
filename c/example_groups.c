/* Prints the year of the first date in a text: the example of the README. */
#include "bites.h"
#include <stdio.h>

int main(void) {
    const uint8_t pattern[] = "([0-9]{4})-([0-9]{2})", text[] = "on 2010-03-14";
    bites date = {0};
    bites_cache cache = {0};
    bites_span group[3];
    bites_new(pattern, sizeof pattern - 1, 0, BITES_SIZE_LIMIT, BITES_NEST_LIMIT, &date);
    bites_cache_new(&date, &cache);
    if (bites_captures_at(&date, &cache, text, sizeof text - 1, 0, group, 3).code == BITES_MATCH)
        printf("%.*s\n", (int)(group[1].end - group[1].start), text + group[1].start);
    bites_cache_free(&cache);
    bites_free(&date);
    return 0;
}
