/* Plays the script of standard input as flow_play does. With the word svg, text, explain or json, prints what flow_draw prints; with the
 * word why, where and why the script is refused. With check or order, judges the record of standard input and prints what
 * flow_judge prints, except that the status of an illegal record is 5, and not 1. With any other word, plays the script. */
#include "wumsnair.h"
#include <stdio.h>
#include <stdlib.h>
#include <string.h>

#define FIRST_ROOM (1 << 16)

/* Reads standard input to its end, and sets the number of its bytes. Returns NULL if memory is refused. */
static uint8_t *read_all(size_t *bytes) {
    size_t room = FIRST_ROOM;
    uint8_t *text = malloc(room);
    *bytes = 0;
    while (text != NULL) {
        *bytes += fread(text + *bytes, 1, room - *bytes, stdin);
        if (*bytes < room) {
            return text;
        }
        room *= 2;
        uint8_t *longer = realloc(text, room);
        if (longer == NULL) {
            free(text);
        }
        text = longer;
    }
    return NULL;
}

/* Returns the status with which flow_play and flow_draw, or flow_judge, end if a read or a write fails. */
static int failed(const char *what) {
    return strcmp(what, "check") == 0 || strcmp(what, "order") == 0 ? 4 : 3;
}

static uint32_t call(const char *what, const uint8_t *text, size_t bytes, uint8_t *out, size_t room, size_t *needed) {
    static const char *const forms[] = {"svg", "text", "explain"};
    for (uint32_t form = 0; form < 3; form++) {
        if (strcmp(what, forms[form]) == 0) {
            return wumsnair_draw(form, text, bytes, out, room, needed);
        }
    }
    if (strcmp(what, "check") == 0 || strcmp(what, "order") == 0) {
        return wumsnair_check(what[0] == 'o', text, bytes, out, room, needed);
    }
    if (strcmp(what, "json") == 0) {
        return wumsnair_trace(0, text, bytes, out, room, needed);
    }
    if (strcmp(what, "why") == 0) {
        return wumsnair_explain(text, bytes, out, room, needed);
    }
    return wumsnair_play(text, bytes, out, room, needed);
}

int main(int argc, char **argv) {
    static uint8_t few[64];
    size_t bytes, needed;
    uint8_t *text = read_all(&bytes);
    if (text == NULL) {
        return WUMSNAIR_OUT_OF_MEMORY;
    }
    const char *what = argc > 1 ? argv[1] : "play";
    if (ferror(stdin)) {
        free(text);
        return failed(what);
    }
    uint32_t status = call(what, text, bytes, few, sizeof few, &needed);
    uint8_t *longer = NULL;
    while (status == WUMSNAIR_TOO_LONG) {
        free(longer);
        longer = malloc(needed);
        if (longer == NULL) {
            free(text);
            return WUMSNAIR_OUT_OF_MEMORY;
        }
        status = call(what, text, bytes, longer, needed, &needed);
    }
    size_t written = fwrite(longer == NULL ? few : longer, 1, needed, stdout);
    free(longer);
    free(text);
    return written == needed && fflush(stdout) == 0 ? (int)status : failed(what);
}
