/* The program over the games of a file, in memory; without ARGUMENTs it lists their positions.
 *     cc list.c libpgn_extract.a -o list
 *     ./list FILE [ARGUMENT].. */
#include "pgn_extract.h"

#include <stdio.h>
#include <stdlib.h>
#include <string.h>

/* A text that grows. */
struct text {
    char *bytes;
    size_t size, room;
};

static void fail(const char *why) {
    fprintf(stderr, "list: %s\n", why);
    exit(PGN_FAILED);
}

/* Gives a text so much room, and never none. */
static void grow(struct text *text, size_t room) {
    text->room = room ? room : 1;
    text->bytes = realloc(text->bytes, text->room);
    if (!text->bytes) fail("out of memory");
}

static void add(struct text *text, const char *bytes, size_t size) {
    if (size > text->room - text->size) grow(text, 2 * (text->room + size));
    memcpy(text->bytes + text->size, bytes, size);
    text->size += size;
}

static void read_file(const char *path, struct text *text) {
    char piece[1 << 16];
    size_t count;
    FILE *file = fopen(path, "rb");
    if (!file) fail("the file cannot be opened");
    while ((count = fread(piece, 1, sizeof piece, file)) > 0) add(text, piece, count);
    if (ferror(file)) fail("the file cannot be read");
    fclose(file);
}

int main(int count, char **words) {
    struct text games = {0}, arguments = {0}, out = {0}, err = {0};
    int status;
    if (count < 2) fail("list FILE [ARGUMENT]..");
    grow(&games, 1 << 16);
    read_file(words[1], &games);
    grow(&arguments, 64);
    if (count == 2) add(&arguments, "--list", 6);
    for (int at = 2; at < count; at++) {
        add(&arguments, words[at], strlen(words[at]));
        add(&arguments, "\n", 1);
    }
    grow(&out, 4096);
    grow(&err, 4096);
    for (;;) {
        status = pgn_run(arguments.bytes, arguments.size, games.bytes, games.size, "", 0,
                         out.bytes, out.room, &out.size, err.bytes, err.room, &err.size);
        if (out.size <= out.room && err.size <= err.room) break;
        if (out.size > out.room) grow(&out, out.size);
        if (err.size > err.room) grow(&err, err.size);
    }
    if (fwrite(out.bytes, 1, out.size, stdout) < out.size || fflush(stdout)) fail("cannot write");
    if (fwrite(err.bytes, 1, err.size, stderr) < err.size) return PGN_FAILED;
    return status;
}
