/* pgn-extract for C, and for languages that call C. No call keeps anything, or touches a file. */
#ifndef PGN_EXTRACT_H
#define PGN_EXTRACT_H

#include <stddef.h>

#ifdef __cplusplus
extern "C" {
#endif

/* What a call answers: the exit status of the program. */
enum { PGN_SOUND = 0, PGN_FAULTY = 1, PGN_REFUSED = 2, PGN_FAILED = 3 };

/* Runs the program. `arguments` are its arguments in UTF-8, one a line. `games` is its standard
 * input; `text` is the one file that there is, at the path "text", as in "--criteria\ntext".
 * --explain has no notes on what an input is as a whole.
 *
 * The output goes to `out` and what is reported to `err`. Each gets the first bytes, as many as
 * there is room for, and nothing is written past it. `*out_wanted` and `*err_wanted` are how many
 * bytes there are in all: where that is more than the room, call again with so much room.
 *
 * No pointer may be NULL, also beside a size of 0. What is written overlaps nothing else. Memory is
 * that of malloc, realloc and free: no call comes from a signal handler, nor from a forked child of
 * a process with threads. Several threads may call at once. */
int pgn_run(const char *arguments, size_t arguments_size,
            const char *games, size_t games_size,
            const char *text, size_t text_size,
            char *out, size_t out_room, size_t *out_wanted,
            char *err, size_t err_room, size_t *err_wanted);

/* The line of the version, in `out` as of `pgn_run`. */
int pgn_version(char *out, size_t out_room, size_t *out_wanted);

#ifdef __cplusplus
}
#endif

#endif
