// What bench/journal measures against: the same writes and syncs, and the same records read.
//
//     journal append SELECTOR LEAF0 COUNT   appends COUNT records of 40 KiB to a new leaf
//     journal list LEAF                     reads each record into memory of its own, and prints how many bytes they have
#include <fcntl.h>
#include <stdint.h>
#include <stdio.h>
#include <stdlib.h>
#include <string.h>
#include <unistd.h>

enum { BODY = 40960 };

static void must(int is_so, const char *what) {
    if (!is_so) {
        perror(what);
        exit(2);
    }
}

static int append(const char *selector, const char *leaf, int count) {
    int s = open(selector, O_RDWR | O_CREAT, 0644), l = open(leaf, O_RDWR | O_CREAT, 0644);
    must(s >= 0 && l >= 0, "open");
    must(pwrite(l, "AS4JNL2\n\0", 9, 0) == 9 && fsync(l) == 0 && fsync(s) == 0, "begin");
    unsigned char *record = calloc(1, BODY + 10);
    must(record != NULL, "memory");
    record[0] = 1;
    for (int i = 0; i < 8; i++) record[1 + i] = (unsigned char)((uint64_t)BODY >> (56 - 8 * i));
    off_t gate = 8;
    for (int n = 0; n < count; n++) {
        must(pwrite(l, record + 1, BODY + 9, gate + 1) == BODY + 9 && fsync(l) == 0, "record");
        must(pwrite(l, record, 1, gate) == 1 && fsync(l) == 0, "gate");
        gate += BODY + 9;
    }
    return 0;
}

static int list(const char *leaf) {
    int l = open(leaf, O_RDONLY);
    must(l >= 0, "open");
    unsigned char head[9];
    uint64_t all = 0;
    off_t gate = 8;
    while (pread(l, head, 9, gate) >= 1 && head[0] == 1) {
        uint64_t len = 0;
        for (int i = 1; i < 9; i++) len = len << 8 | head[i];
        unsigned char *body = malloc(len + 1);
        must(body != NULL && pread(l, body, len + 1, gate + 9) == (ssize_t)len + 1, "body");
        all += len;
        gate += 9 + (off_t)len;
        free(body);
    }
    printf("%llu\n", (unsigned long long)all);
    return 0;
}

int main(int argc, char **argv) {
    if (argc == 5 && strcmp(argv[1], "append") == 0) return append(argv[2], argv[3], atoi(argv[4]));
    if (argc == 3 && strcmp(argv[1], "list") == 0) return list(argv[2]);
    return 64;
}
