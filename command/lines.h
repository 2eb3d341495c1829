/* Texts by lines and words, and how a mistake is told. */
#ifndef COMMAND_LINES_H
#define COMMAND_LINES_H

#include <stdbool.h>
#include <stddef.h>
#include <stdint.h>

#include "given.h"
#include "io.h"
#include "names.h"

enum { WORDS_MOST = 64 };

struct word { const char *at; size_t length; };

/* A line's words, and the one that is read next. */
struct line {
    const char *file;
    size_t number;                             /* from 1 */
    size_t count, next;
    struct word words[WORDS_MOST];
    struct given *given;                       /* the names so far */
};

/* Reads one line that has words; false after a mistake, which was told. The next lines are read all the same, so that all mistakes are told. */
typedef bool line_reader(struct line *l, void *into);

/* Reads the text of a file, or of standard input, line by line; blank lines and comments are left out. Refused where there was a mistake. */
enum status read_lines(const char *file, struct given *given, line_reader *read, void *into);

/* The same of a text that was read already, of the file of this name. */
enum status read_lines_of(const char *name, struct bytes *text, struct given *given, line_reader *read, void *into);

/* Tells a mistake as `file:line: ...`; answers false. */
bool mistake(const struct line *l, const char *format, ...) FORMAT(2, 3);

/* Tells that the next word is not what was expected. */
bool unexpected(const struct line *l, const char *expected);

bool at_end(const struct line *l);

/* Whether the next word is this one; `accept` goes on to the next then. */
bool is_next(const struct line *l, const char *text);
bool accept(struct line *l, const char *text);

/* The next word if it is one of `count` names: its place, else -1. */
int accept_name(struct line *l, name_text *names, int count);

bool is_number_next(const struct line *l);

/* Takes a number from 0 to `most`. */
bool take_number(struct line *l, const char *what, unsigned most, uint8_t *out);

/* Takes the number of a user, an object or a process, or its name. A process that is named first gets a number. */
bool take_thing(struct line *l, enum thing what, const char *expected, unsigned most, uint8_t *out);

/* Takes the name of an object, where the next word is one. */
bool accept_object(struct line *l, uint8_t *out);

/* Whether the next word ends with a colon. Takes the number before it, which is that of the thing, or the name that it gives to the thing. */
bool is_place_next(const struct line *l);
bool take_place(struct line *l, enum thing what, unsigned is);

/* Takes a kind of object, by its number. */
bool take_kind(struct line *l, uint8_t *kind);

/* Whether the next word may be a set of categories: letters a to h, or `all`. */
bool is_set_next(const struct line *l);

/* Takes a set of categories: letters a to h, each at most once, `all` or `none`. */
bool take_set(struct line *l, uint8_t *set);

/* Notes that a field is given; false where it was before. */
bool give(const struct line *l, unsigned *given, unsigned field, const char *name);

#endif
