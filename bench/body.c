// The plain C program that `bench/throughput` measures the reading of a body against: it reads the standard input into
// one buffer that has room for all of it.
#include <stdlib.h>
#include <unistd.h>

#define MAX_HEAD 65536
#define MAX_BODY 67108864

int main(void) {
    size_t room = MAX_HEAD + MAX_BODY, length = 0;
    char *bytes = malloc(room);
    if (!bytes) return 5;
    while (length < room) {
        ssize_t got = read(0, bytes + length, room - length);
        if (got < 0) return 3;
        if (got == 0) break;
        length += got;
    }
    return length > MAX_BODY ? 0 : 1;
}
