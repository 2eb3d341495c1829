/* The run program in plain C, compiled in the two ways of plain.h: reads `setup.bin` and calls from standard input, in blocks as the proved one does. */
#include <stdio.h>
#include <unistd.h>

#include "plain.h"

static uint8_t bytes[4096];
static char out[65536];

static size_t fill(int fd, uint8_t *to, size_t most)
{
    size_t done = 0;
    while (done < most) {
        ssize_t got = read(fd, to + done, most - done);
        if (got <= 0) break;
        done += (size_t)got;
    }
    return done;
}

static int flush(const char *from, size_t n)
{
    while (n > 0) {
        ssize_t put = write(1, from, n);
        if (put <= 0) return 0;
        from += put;
        n -= (size_t)put;
    }
    return 1;
}

int main(void)
{
    static hv_facility f;
    uint16_t index;
    size_t n = 0;
    FILE *file = fopen("setup.bin", "rb");
    if (file) {
        n = fread(bytes, 1, sizeof bytes, file);
        fclose(file);
    }
    uint8_t number = plain_read_setup(&f, bytes, n, &index);
    if (number != 0) {
        flush(out, (size_t)sprintf(out, "set-up %d %d\n", number, index));
        return 0;
    }
    for (uint64_t i = 1;;) {
        size_t got = fill(0, bytes, sizeof bytes), at = 0;
        for (size_t k = 0; k + 4 <= got; k += 4, i++) {
            hv_outcome o = plain_enforce(&f, bytes[k], bytes[k + 1], bytes[k + 2], bytes[k + 3]);
            at += plain_line(out + at, i, bytes + k, &f, o);
        }
        if (got % 4 != 0) at += (size_t)sprintf(out + at, "short\n");
        if (!flush(out, at) || got < sizeof bytes) return 0;
    }
}
