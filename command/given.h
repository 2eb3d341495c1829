/* The names that a text gives to users, objects and processes. They stand for numbers, and are in no byte. */
#ifndef COMMAND_GIVEN_H
#define COMMAND_GIVEN_H

#include <stdbool.h>
#include <stddef.h>
#include <stdint.h>

#include "io.h"

enum thing { USER, OBJECT, PROCESS_NAME, THINGS };
enum { NUMBERS = 256, NAME_MOST = 40 };

struct given {
    char names[THINGS][NUMBERS][NAME_MOST + 1];        /* empty where a number has none */
    bool named_by_number[NUMBERS];                     /* process numbers that stood in a line */
};

/* Whether a word may be a name: a letter, then letters, digits, hyphens and underlines, and no word of the texts' own. */
bool may_be_name(const char *at, size_t length);

/* The number of a name, or -1. */
int number_of(const struct given *g, enum thing what, const char *at, size_t length);

/* Gives a number a name; the name is new, and may be one. */
void give_name(struct given *g, enum thing what, uint8_t number, const char *at, size_t length);

/* The number of a process by its name: the smallest that no line has named yet, where the name is new; -1 where there is none left. */
int process_number_of(struct given *g, const char *at, size_t length);

/* Adds a line of the library's words with names for numbers: `process left` for `process 0`. */
void add_with_names(struct bytes *b, const struct given *g, const uint8_t *line, size_t length);

#endif
