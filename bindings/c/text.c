// Plans the sample order typed as text, or M and the text on standard input: text, or text M < FILE. Prints its build as
// the printer does.
#include <stdlib.h>

#include "show.h"

// The sample order as a person types it: m, then T, D and C in milliseconds.
static const char SAMPLE[] = "2;0.10;0,1;0.04\n1;0.14;0.13;0,04\n1;0.14;0.13;0.04\n";

// Text as it was typed, every byte of it; a text that is cut would be another. NULL where it cannot be read.
static uint8_t *read_all(FILE *file, size_t *size) {
    uint8_t *text = NULL;
    *size = 0;
    for (size_t room = 1024; room != 0; room *= 2) {
        uint8_t *larger = realloc(text, room);
        if (larger == NULL) break;
        text = larger;
        *size += fread(text + *size, 1, room - *size, file);
        if (ferror(file)) break;
        if (*size < room) return text;
    }
    free(text);
    return NULL;
}

// M goes through jefkantu_from_text, so that 2^32 + 75 is refused and never 75; the text goes as it is.
static int plan_text(const char *processors, const uint8_t *text, size_t text_len) {
    uint8_t order[JEFKANTU_MOST_ORDER_BYTES];
    uint64_t word = jefkantu_read_text(jefkantu_from_text(processors), text, text_len, order, sizeof order);
    return jefkantu_number(word) != 0 ? refused(word) : planned(order, jefkantu_count(word));
}

int main(int count, char **arguments) {
    if (count < 2) return plan_text("4", (const uint8_t *)SAMPLE, sizeof SAMPLE - 1);
    size_t text_len;
    uint8_t *text = read_all(stdin, &text_len);
    if (text == NULL) {
        perror("standard input");
        return 2;
    }
    int status = plan_text(arguments[1], text, text_len);
    free(text);
    return status;
}
