/* Linked into the program that tools/build-unproved makes: says what it means where a check at run
   time has ended the run. The program still ends by the signal of the check. */
typedef void handler(int number);
extern handler *signal(int number, handler *to);
extern int raise(int number);
extern long write(int file, const void *bytes, unsigned long count);

enum { ILLEGAL_INSTRUCTION = 4, STANDARD_ERROR = 2 };

static const char MESSAGE[] =
    "pgn-extract: a check at run time failed and ended the run: the output is cut short, and "
    "nothing in it is wrong. Please report the command and the file (see CONTRIBUTING.md).\n";

static void say_and_end(int number) {
    if (write(STANDARD_ERROR, MESSAGE, sizeof MESSAGE - 1) < 0) {
        /* The signal still tells. */
    }
    signal(number, 0);
    raise(number);
}

__attribute__((constructor)) static void watch(void) { signal(ILLEGAL_INSTRUCTION, say_and_end); }
