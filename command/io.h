/* Input and output of the command: every failure is told, and ends it with a status. */
#ifndef COMMAND_IO_H
#define COMMAND_IO_H

#include <stdbool.h>
#include <stddef.h>
#include <stdint.h>
#include <sys/types.h>

#if defined __GNUC__
#define FORMAT(text, first) __attribute__((format(printf, text, first)))
#else
#define FORMAT(text, first)
#endif

/* The statuses that the command ends with. */
enum status { DONE = 0, REFUSED = 1, FAILED = 2, WRONG_USE = 64 };

/* Bytes that grow. */
struct bytes { uint8_t *at; size_t length, room; };

/* Tells something on standard error, as `hvozdalka: ...`. */
void tell(const char *format, ...) FORMAT(1, 2);

/* Tells that `what` failed, by errno. */
enum status failed(const char *what);

/* Adds bytes, or a formatted text. Where memory ends, so does the program: nothing was written by then. */
void add(struct bytes *b, const void *from, size_t length);
void add_text(struct bytes *b, const char *format, ...) FORMAT(2, 3);

/* Reads once: how many bytes there were, 0 at the end, -1 with errno. A signal does not end it, nor does a descriptor that would block. */
ssize_t read_some(int fd, void *to, size_t length);

/* Opens a file to be read, or standard input where `name` is null or `-`; -1 with errno. What was opened is closed; standard input stays open. */
int open_input(const char *name);
void close_input(const char *name, int fd);

/* Reads once, behind what is there: how many bytes there were, as `read_some`. */
ssize_t add_some(int fd, struct bytes *b);

/* Reads a file, or at most its first bytes; standard input where `name` is null or `-`. False with errno, and then there are none. */
bool read_whole(const char *name, size_t most, struct bytes *b);

/* Writes all bytes to standard output, or tells why not. */
enum status write_out(const void *from, size_t length);

/* Writes all bytes into a file, or to standard output where it is null. The file is put in its place when all of it is written: where something fails the old
 * one stays. What is no plain file, as /dev/null, is written to as it is. */
enum status write_into(const char *file, const void *from, size_t length);

/* Closes standard output, which may be where a write fails after all. */
enum status close_out(void);

/* How a file is called in what is told: control characters of its name as numbers. */
const char *name_of(const char *name);

#endif
