/* The names of requests, kinds, roles, categories, data types and flags: the library's words, in which a blank is a hyphen here, so that each is one word
 * of a line. */
#ifndef COMMAND_NAMES_H
#define COMMAND_NAMES_H

#include <stddef.h>
#include <stdint.h>

#include "hvozdalka.h"
#include "io.h"

enum {
    REQUESTS = HV_LOGIN + 1, KINDS = HV_CONTROL_DATA + 1, ROLES = HV_SYSTEM_ADMINISTRATOR + 1, DATA_TYPES = HV_SECURITY_INFORMATION + 1, FLAGS = 5, RECORD = 8,
    UNSET_CATEGORY = HV_CATEGORY_SYSTEM + 1, CATEGORIES             /* by place: the last one is of HV_UNSET */
};

typedef char name_text[HV_WORD_MOST + 1];

extern name_text request_names[REQUESTS], kind_names[KINDS], role_names[ROLES], category_names[CATEGORIES], data_type_names[DATA_TYPES], flag_names[FLAGS];
extern const uint8_t flags[FLAGS];

/* Takes them from the library; before this they are empty. */
void take_names(void);

/* Adds what a number says. */
void add_number(struct bytes *b, uint8_t number);

/* Names as they are told: `file, directory or channel`. */
enum { LISTED = 256 };
const char *listed(name_text *names, int count, char out[LISTED]);

/* Adds the letters of a set of categories with a blank before them: ` ab`, ` all`, nothing for none. */
void add_letters(struct bytes *b, uint8_t set);

/* Adds the eight bytes of a record, or as many as there are. */
void add_record(struct bytes *b, const struct bytes *setup, size_t index);

#endif
