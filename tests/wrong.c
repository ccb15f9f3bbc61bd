// A wrong program: runs the right one (PROGRAM) with the arguments given, and changes what it writes.
// With DOUBLED each line of both outputs comes twice; else the last game is left out: what is
// exported of it, or each line with its mark and the notes below. Status 3: it could not be done.
#define _GNU_SOURCE
#include <poll.h>
#include <signal.h>
#include <stdio.h>
#include <stdlib.h>
#include <string.h>
#include <sys/wait.h>
#include <unistd.h>

struct text {
    char *bytes;
    size_t length, room;
};

static void append(struct text *text, const char *bytes, size_t length) {
    if (text->length + length > text->room) {
        text->room = (text->length + length) * 2 + 4096;
        text->bytes = realloc(text->bytes, text->room);
        if (!text->bytes)
            _exit(3);
    }
    if (length)
        memcpy(text->bytes + text->length, bytes, length);
    text->length += length;
}

// Reads both outputs up to their ends.
static void read_both(int places[2], struct text texts[2]) {
    struct pollfd waited[2] = {{places[0], POLLIN, 0}, {places[1], POLLIN, 0}};
    static char piece[65536];
    while (waited[0].fd >= 0 || waited[1].fd >= 0) {
        if (poll(waited, 2, -1) < 0)
            _exit(3);
        for (int i = 0; i < 2; i++) {
            if (waited[i].fd < 0 || !waited[i].revents)
                continue;
            ssize_t got = read(waited[i].fd, piece, sizeof piece);
            if (got > 0)
                append(&texts[i], piece, (size_t)got);
            else
                waited[i].fd = -1;
        }
    }
}

// The length of the line at a place, with its line feed.
static size_t line_at(const struct text *text, size_t at) {
    char *end = memchr(text->bytes + at, '\n', text->length - at);
    return end ? (size_t)(end - text->bytes) - at + 1 : text->length - at;
}

// The same where a carriage return ends a line too, as bytes of a pack may be one.
static size_t row_at(const struct text *text, size_t at) {
    size_t length = line_at(text, at);
    char *end = memchr(text->bytes + at, '\r', length);
    if (!end)
        return length;
    size_t here = (size_t)(end - text->bytes) - at + 1;
    return here < length && end[1] == '\n' ? here + 1 : here;
}

#ifdef DOUBLED
static void change(struct text texts[2]) {
    for (int i = 0; i < 2; i++) {
        struct text made = {0};
        for (size_t at = 0, length; at < texts[i].length; at += length) {
            length = row_at(&texts[i], at);
            append(&made, texts[i].bytes + at, length);
            append(&made, texts[i].bytes + at, length);
        }
        texts[i] = made;
    }
}
#else
static const char REPORT[] = "pgn-extract: game ", EVENT[] = "[Event \"";

static int begins(const struct text *text, size_t at, const char *word) {
    size_t length = strlen(word);
    return text->length - at >= length && !memcmp(text->bytes + at, word, length);
}

// The number of the mark that the line at a place begins with; 0 where it begins with none.
static unsigned long mark_at(const struct text *text, size_t at) {
    unsigned long number = 0;
    if (begins(text, at, REPORT))
        at += sizeof REPORT - 1;
    while (at < text->length && text->bytes[at] >= '0' && text->bytes[at] <= '9')
        number = number * 10 + (unsigned long)(text->bytes[at++] - '0');
    return at < text->length && text->bytes[at] == '@' ? number : 0;
}

static unsigned long last_mark(const struct text *text) {
    unsigned long last = 0;
    for (size_t at = 0; at < text->length; at += line_at(text, at))
        if (mark_at(text, at) > last)
            last = mark_at(text, at);
    return last;
}

// Leaves out the lines with a mark, and the notes below each.
static void drop_mark(struct text *text, unsigned long number) {
    struct text made = {0};
    int dropped = 0;
    for (size_t at = 0, length; at < text->length; at += length) {
        length = line_at(text, at);
        dropped = mark_at(text, at) == number || (dropped && begins(text, at, "  "));
        if (!dropped)
            append(&made, text->bytes + at, length);
    }
    *text = made;
}

static void drop_last_line(struct text *text) {
    size_t begin = 0;
    for (size_t at = 0; at < text->length; at += row_at(text, at))
        begin = at;
    text->length = begin;
}

static void change(struct text texts[2]) {
    size_t event = texts[0].length;
    for (size_t at = 0; at < texts[0].length; at += line_at(&texts[0], at))
        if (begins(&texts[0], at, EVENT))
            event = at;
    if (event < texts[0].length) {
        texts[0].length = event;
        return;
    }
    unsigned long out = last_mark(&texts[0]), err = last_mark(&texts[1]);
    for (int i = 0; i < 2; i++) {
        if (out || err)
            drop_mark(&texts[i], out > err ? out : err);
        else
            drop_last_line(&texts[i]);
    }
}
#endif

static void put(int place, const struct text *text) {
    for (size_t at = 0; at < text->length;) {
        ssize_t put = write(place, text->bytes + at, text->length - at);
        if (put <= 0)
            _exit(3);
        at += (size_t)put;
    }
}

int main(int count, char **arguments) {
    int out[2], err[2], status;
    if (!count || pipe(out) || pipe(err))
        return 3;
    pid_t child = fork();
    if (child < 0)
        return 3;
    if (!child) {
        if (dup2(out[1], 1) < 0 || dup2(err[1], 2) < 0)
            _exit(3);
        for (int i = 0; i < 2; i++)
            close(out[i]), close(err[i]);
        // (PROGRAM may be a command that looks for a program there, and would find this one)
        unsetenv("PGN_EXTRACT");
        execv(PROGRAM, arguments);
        _exit(3);
    }
    close(out[1]);
    close(err[1]);
    close(0);
    signal(SIGPIPE, SIG_IGN);
    struct text texts[2] = {{0}, {0}};
    int places[2] = {out[0], err[0]};
    read_both(places, texts);
    if (waitpid(child, &status, 0) != child)
        return 3;
    change(texts);
    put(1, &texts[0]);
    put(2, &texts[1]);
    return WIFEXITED(status) ? WEXITSTATUS(status) : 3;
}
