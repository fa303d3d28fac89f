/* Runs a small job's text: one CNOT over two links, judged and listed. */
#include "zirbonnu.h"

#include <stdio.h>
#include <stdlib.h>
#include <string.h>

static const char TEXT[] =
    "o 3 1 2\n"
    "C 0 1\n"
    "e\n"
    "k 0 1 1 100 2 0\n"
    "k 1 1 1 100 3 0\n"
    "p 0 0\n"
    "p 1 2\n"
    "t 0 5 0\n"
    "j\n"
    "l\n";

/* Whether each of the places holds the byte. */
static int all_hold(const uint8_t *places, size_t length, uint8_t byte) {
    for (size_t i = 0; i < length; i++) {
        if (places[i] != byte) {
            return 0;
        }
    }
    return 1;
}

/* Five places are too few: the call says how many it takes, and leaves them. */
static int run_in_five(const uint8_t *text, size_t length) {
    uint8_t places[5];
    memset(places, '#', sizeof places);
    size_t count = 0;
    uint32_t status = zirbonnu_run(text, length, places, sizeof places, &count);
    printf("5 places: status %u, %zu are needed, places %s\n", (unsigned)status,
           count, all_hold(places, sizeof places, '#') ? "left" : "changed");
    return status == ZIRBONNU_TOO_SMALL && all_hold(places, sizeof places, '#');
}

/* As many places as are needed, and 10 more, which are left. */
static int run_in_enough(const uint8_t *text, size_t length) {
    size_t needed = 0;
    if (zirbonnu_measure(text, length, &needed) != ZIRBONNU_DONE) {
        return 0;
    }
    uint8_t *places = malloc(needed + 10);
    if (places == NULL) {
        return 0;
    }
    memset(places, '#', needed + 10);
    size_t count = 0;
    uint32_t status = zirbonnu_run(text, length, places, needed + 10, &count);
    int left = all_hold(places + needed, 10, '#');
    printf("%zu places: status %u, %zu written, the last 10 %s\n", needed + 10,
           (unsigned)status, count, left ? "left" : "changed");
    fwrite(places, 1, count, stdout);
    free(places);
    return status == ZIRBONNU_DONE && count == needed && left;
}

int main(void) {
    const uint8_t *text = (const uint8_t *)TEXT;
    size_t length = sizeof TEXT - 1;
    int ok = run_in_five(text, length) && run_in_enough(text, length);
    return ok ? EXIT_SUCCESS : EXIT_FAILURE;
}
