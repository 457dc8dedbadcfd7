/* The proved player of flow scripts and the checker of records, for programs in C and in languages that call C.
 *
 * Each function reads `script_bytes` bytes at `script`, or `record_bytes` at `record`, writes its text of at most `out_bytes` bytes at
 * `out`, and sets `*needed` to the number of bytes of the text. If these do not fit, it writes nothing and returns WUMSNAIR_TOO_LONG:
 * call again with more room, until the result is another one. Each call does all its work again. No text ends with a zero byte.
 * `script` or `record`, `out` and `needed` must not overlap, and none may be null, even for zero bytes.
 *
 * A script (docs/SCRIPTS.md, at most 1,048,576 bytes) and a record (docs/RECORDS.md) are JSON in UTF-8; other bytes are refused.
 * The text is UTF-8. If memory is refused, it is the line `out of memory`; from wumsnair_explain it is empty.
 *
 * A short script can take any time and any memory, since its chains may make very many items from one, and a call cannot be stopped:
 * play a script that you do not trust in a process with limits.
 *
 * The functions use the program's malloc, realloc and free. They keep nothing between calls, so several threads may call at once,
 * each with its own buffers. No function may be called in a signal handler. */
#ifndef WUMSNAIR_H
#define WUMSNAIR_H

#include <stddef.h>
#include <stdint.h>

#ifdef __cplusplus
extern "C" {
#endif

enum wumsnair_status {
    WUMSNAIR_GIVEN = 0,
    WUMSNAIR_TOO_LONG = 1,
    WUMSNAIR_REFUSED = 2,
    WUMSNAIR_OUT_OF_MEMORY = 4
};

enum wumsnair_verdict { WUMSNAIR_LEGAL = 0, WUMSNAIR_GAVE_UP = 3, WUMSNAIR_ILLEGAL = 5 };

enum wumsnair_form { WUMSNAIR_SVG = 0, WUMSNAIR_TEXT = 1, WUMSNAIR_EXPLAINED = 2 };

/* Gives the lines that a script writes: one for each flow that is refused, and then one for each step. If the flow of a script of
 * version 1 is refused, gives only the line of the flow. If the script is refused, gives the line that says so, and returns
 * WUMSNAIR_REFUSED. */
uint32_t wumsnair_play(const uint8_t *script, size_t script_bytes, uint8_t *out, size_t out_bytes, size_t *needed);

/* Gives a picture of a script, or its lines with their rules. If the script is refused, gives the line that says so. A form that
 * is none of those above counts as WUMSNAIR_EXPLAINED. */
uint32_t wumsnair_draw(uint32_t form, const uint8_t *script, size_t script_bytes, uint8_t *out, size_t out_bytes, size_t *needed);

/* Gives the trace of a script as JSON: its lines, each with the rule behind it, what the step did, and what it left of its flow, as
 * docs/trace.schema.json describes it. If `most_drawn` is not 0, and the script has at most that many steps, the trace has its picture, too. If the script is
 * refused, gives the line that says so. */
uint32_t wumsnair_trace(uint32_t most_drawn, const uint8_t *script, size_t script_bytes, uint8_t *out, size_t out_bytes, size_t *needed);

/* Gives lines for a human reader that say where and why a script is refused; nothing if it is not refused. */
uint32_t wumsnair_explain(const uint8_t *script, size_t script_bytes, uint8_t *out, size_t out_bytes, size_t *needed);

/* Judges recorded calls of a flow: whether the documented flow may have given these answers. Gives what flow_judge prints, with the
 * order of the calls of a legal record if `with_order` is not 0. Returns a value of wumsnair_verdict, or WUMSNAIR_TOO_LONG,
 * WUMSNAIR_REFUSED or WUMSNAIR_OUT_OF_MEMORY. */
uint32_t wumsnair_check(uint32_t with_order, const uint8_t *record, size_t record_bytes, uint8_t *out, size_t out_bytes, size_t *needed);

#ifdef __cplusplus
}
#endif
#endif
