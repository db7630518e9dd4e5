/* Whether a text with many elements in one another may be put into others, as with a libxml2 that calls itself for each of them: the test compiles this for a
 * version before 2.9.11. Each text is balanced, but counts as unbalanced if libxml2 would go deeper than it may. */
#include "entity_balance.h"
#include "events.h"

#include <stdio.h>
#include <stdlib.h>

static bool is_balanced(size_t depth) {
    struct bytes text = NO_BYTES;
    for (size_t at = 0; at < depth; at++) {
        bytes_add_text(&text, "<b>");
    }
    for (size_t at = 0; at < depth; at++) {
        bytes_add_text(&text, "</b>");
    }
    bool is_so = entity_is_balanced((struct span){text.data, text.length});
    bytes_free(&text);
    return is_so;
}

int main(void) {
    bool is_good = LIBXML_VERSION == 20910 && is_balanced(USUAL_DEPTH - 1) && !is_balanced(USUAL_DEPTH + 1);
    printf("balance_test: %s\n", is_good ? "ok" : "FAILED");
    return is_good ? EXIT_SUCCESS : EXIT_FAILURE;
}
