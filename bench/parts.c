// The plain C program that `bench/throughput` measures the reading of a package against: it reads the standard input
// into one buffer, and finds each delimiter of the package by `memmem`, 100 times. It ends with 0 where there are
// three: one before each of two parts, and the last one.
#define _GNU_SOURCE
#include <stdlib.h>
#include <string.h>
#include <unistd.h>

#define MAX_PACKAGE 16777216
#define DELIMITER "\r\n--as4-0000000000000000"

// How many delimiters there are. The first one has no CRLF before it.
static int delimiters_in(const char *bytes, size_t length) {
    size_t size = strlen(DELIMITER);
    const char *at = bytes, *end = bytes + length;
    int count = length >= size && memcmp(bytes, DELIMITER + 2, size - 2) == 0;
    while ((at = memmem(at, end - at, DELIMITER, size))) {
        count++;
        at += size;
    }
    return count;
}

int main(void) {
    size_t length = 0;
    char *bytes = malloc(MAX_PACKAGE);
    if (!bytes) return 5;
    while (length < MAX_PACKAGE) {
        ssize_t got = read(0, bytes + length, MAX_PACKAGE - length);
        if (got < 0) return 3;
        if (got == 0) break;
        length += got;
    }
    for (int turn = 0; turn < 100; turn++) {
        if (delimiters_in(bytes, length) != 3) return 1;
        // The bytes may have changed, so far as the compiler knows: it makes each search.
        __asm__ volatile("" ::: "memory");
    }
    return 0;
}
