#include "io.h"

#include <errno.h>
#include <fcntl.h>
#include <poll.h>
#include <stdarg.h>
#include <stdio.h>
#include <stdlib.h>
#include <string.h>
#include <sys/stat.h>
#include <unistd.h>

void tell(const char *format, ...)
{
    va_list arguments;
    va_start(arguments, format);
    fputs("hvozdalka: ", stderr);
    vfprintf(stderr, format, arguments);
    fputc('\n', stderr);
    va_end(arguments);
}

enum status failed(const char *what)
{
    tell("%s: %s", what, strerror(errno));
    return FAILED;
}

static void out_of_memory(void)
{
    errno = ENOMEM;
    exit((int)failed("memory"));
}

/* Room for so many bytes more; it doubles, so that adding stays cheap. */
static void make_room(struct bytes *b, size_t length)
{
    if (b->room - b->length >= length) return;
    if (length > SIZE_MAX / 4 || b->room > SIZE_MAX / 4) out_of_memory();
    size_t room = 2 * b->room + length + 1024;
    uint8_t *at = realloc(b->at, room);
    if (at == NULL) out_of_memory();
    b->at = at;
    b->room = room;
}

void add(struct bytes *b, const void *from, size_t length)
{
    make_room(b, length);
    if (length > 0) memcpy(b->at + b->length, from, length);
    b->length += length;
}

void add_text(struct bytes *b, const char *format, ...)
{
    va_list arguments, second;
    enum { MOST = 512 };                       /* enough for numbers and names; where it is not, the second try has the room */
    make_room(b, MOST);
    va_start(arguments, format);
    va_copy(second, arguments);
    int n = vsnprintf((char *)b->at + b->length, MOST, format, arguments);
    if (n >= MOST) {
        make_room(b, (size_t)n + 1);
        n = vsnprintf((char *)b->at + b->length, (size_t)n + 1, format, second);
    }
    if (n > 0) b->length += (size_t)n;
    va_end(second);
    va_end(arguments);
}

/* Whether the last read or write is to be tried again: after a signal at once, where it would block once the descriptor is ready. */
static bool again(int fd, short events)
{
    if (errno == EINTR) return true;
    if (errno != EAGAIN && errno != EWOULDBLOCK) return false;
    struct pollfd ready = {fd, events, 0};
    return poll(&ready, 1, -1) >= 0 || errno == EINTR;
}

ssize_t read_some(int fd, void *to, size_t length)
{
    ssize_t n;
    do n = read(fd, to, length);
    while (n < 0 && again(fd, POLLIN));
    return n;
}

static bool write_all(int fd, const uint8_t *from, size_t length)
{
    while (length > 0) {
        ssize_t n = write(fd, from, length);
        if (n == 0) errno = ENOSPC;            /* nothing can be written there, and no reason is given */
        if (n == 0 || (n < 0 && !again(fd, POLLOUT))) return false;
        if (n > 0) {                           /* else it is tried again */
            from += n;
            length -= (size_t)n;
        }
    }
    return true;
}

static bool read_all(int fd, size_t most, struct bytes *b)
{
    while (b->length < most) {
        make_room(b, 65536);
        size_t room = b->room - b->length, wanted = most - b->length;
        ssize_t n = read_some(fd, b->at + b->length, room < wanted ? room : wanted);
        if (n <= 0) return n == 0;
        b->length += (size_t)n;
    }
    return true;
}

static bool is_standard(const char *name)
{
    return name == NULL || strcmp(name, "-") == 0;
}

/* How many of the next bytes are a control character, in ASCII or in UTF-8: these may play with the terminal. */
static size_t control(const unsigned char *at)
{
    if (at[0] < ' ' || at[0] == 127) return 1;
    return at[0] == 0xc2 && at[1] >= 0x80 && at[1] < 0xa0 ? 2 : 0;
}

const char *name_of(const char *name)
{
    static struct bytes told;                  /* the command has one file, so that what it was called before is the same */
    if (is_standard(name)) return "standard input";
    told.length = 0;
    for (const unsigned char *at = (const unsigned char *)name; *at != 0; at++) {
        size_t n = control(at);
        if (n == 0) add(&told, at, 1);
        for (; n > 0; n--) add_text(&told, "\\x%02x", n == 2 ? *at++ : *at);
    }
    add(&told, "", 1);
    return (const char *)told.at;
}

int open_input(const char *name)
{
    int fd;
    if (is_standard(name)) return STDIN_FILENO;
    do fd = open(name, O_RDONLY | O_CLOEXEC | O_NOCTTY);
    while (fd < 0 && errno == EINTR);
    return fd;
}

void close_input(const char *name, int fd)
{
    /* A file may have the number of a standard input that was closed. */
    if (!is_standard(name) && fd >= 0) close(fd);
}

ssize_t add_some(int fd, struct bytes *b)
{
    make_room(b, 65536);
    ssize_t n = read_some(fd, b->at + b->length, b->room - b->length);
    if (n > 0) b->length += (size_t)n;
    return n;
}

bool read_whole(const char *name, size_t most, struct bytes *b)
{
    int fd = open_input(name);
    if (fd >= 0 && read_all(fd, most, b)) {
        close_input(name, fd);
        return true;
    }
    int why = errno;
    close_input(name, fd);
    free(b->at);
    *b = (struct bytes){0};
    errno = why;
    return false;
}

enum status write_out(const void *from, size_t length)
{
    return write_all(STDOUT_FILENO, from, length) ? DONE : failed("standard output");
}

/* A new file beside the old one, which takes its place. */
static bool replace(const char *file, const char *beside, const void *from, size_t length)
{
    mode_t mask = umask(0);
    umask(mask);
    int fd = open(beside, O_WRONLY | O_CREAT | O_EXCL | O_CLOEXEC, 0666 & ~mask);
    if (fd < 0) return false;
    bool is_written = write_all(fd, from, length);
    int why = errno;
    if (close(fd) != 0 && is_written) {
        is_written = false;
        why = errno;
    }
    if (is_written && rename(beside, file) == 0) return true;
    if (is_written) why = errno;
    unlink(beside);
    errno = why;
    return false;
}

enum status write_into(const char *file, const void *from, size_t length)
{
    if (file == NULL) return write_out(from, length);
    struct stat is;
    if (stat(file, &is) == 0 && !S_ISREG(is.st_mode)) {
        int fd = open(file, O_WRONLY | O_CLOEXEC);
        bool is_written = fd >= 0 && write_all(fd, from, length);
        int why = errno;
        if (fd >= 0 && close(fd) != 0 && is_written) {
            is_written = false;
            why = errno;
        }
        errno = why;
        return is_written ? DONE : failed(name_of(file));
    }
    struct bytes beside = {0};
    add_text(&beside, "%s.%ld.new", file, (long)getpid());
    add(&beside, "", 1);
    enum status s = replace(file, (const char *)beside.at, from, length) ? DONE : failed(name_of(file));
    free(beside.at);
    return s;
}

enum status close_out(void)
{
    /* After a signal the descriptor is closed all the same. */
    return close(STDOUT_FILENO) == 0 || errno == EINTR ? DONE : failed("standard output");
}
