/* Writes a trace of version 4 with the greatest numbers of entries, and with this last line (tests/far_trace). */
#include <stdio.h>
#include <stdlib.h>
#include <string.h>
#include <unistd.h>

enum { ROOM = 1 << 20, LINE = 64 };

static char buffer[ROOM + LINE];
static size_t held;

static void flush(void) {
    for (size_t done = 0; done < held;) {
        ssize_t wrote = write(1, buffer + done, held - done);
        if (wrote < 0) {
            exit(1);
        }
        done += (size_t)wrote;
    }
    held = 0;
}

static void add(const char *text, size_t length) {
    memcpy(buffer + held, text, length);
    held += length;
    if (held >= ROOM) {
        flush();
    }
}

static void put(const char *text) {
    add(text, strlen(text));
}

/* A decimal number that is counted up in its digits. */
struct number {
    char digits[12];
    size_t length;
};

static void next(struct number *number) {
    size_t at = number->length;
    while (at > 0 && number->digits[at - 1] == '9') {
        number->digits[--at] = '0';
    }
    if (at > 0) {
        number->digits[at - 1]++;
    } else {
        memmove(number->digits + 1, number->digits, number->length);
        number->digits[0] = '1';
        number->length++;
    }
}

int main(int count, char **words) {
    if (count != 4) {
        return 2;
    }
    unsigned long reads = strtoul(words[1], NULL, 10), windows = strtoul(words[2], NULL, 10);
    char line[LINE];
    struct number number = {"0", 1};
    put("frtrace 4\nparams 3 4 1 20 5 0 10 90 0 5\nnode 1 0 0 1073741824 3221225469\nrx 2 AB 0 1\nbegin\n");
    for (unsigned long at = 0; at < reads; at++) {
        add("read 0 0 -\n", 11);
    }
    for (unsigned long at = 0; at < windows; at++) {
        const char *seen = at + 1 < windows ? " - -\n" : " x200203c1400a0ba32217 noise\n";
        memcpy(line, "fetch ", 6);
        memcpy(line + 6, number.digits, number.length);
        memcpy(line + 6 + number.length, " 0 0 2 2 - -\n", 13);
        add(line, 19 + number.length);
        memcpy(line, "see ", 4);
        memcpy(line + 4, number.digits, number.length);
        add(line, 4 + number.length);
        put(seen);
        next(&number);
    }
    put(words[3]);
    put("\n");
    flush();
    return 0;
}
