/* The subcommands; each answers the status that the command ends with. */
#ifndef COMMAND_COMMANDS_H
#define COMMAND_COMMANDS_H

#include "given.h"
#include "hvozdalka.h"
#include "io.h"
#include "lines.h"

/* How much of a set-up is read. Every allowed length is far below: of a longer file the front is refused as the whole would be. */
enum { SETUP_READ = 65536, CALL = 4 };

/* run.c: the calls of standard input, by lines of numbers or in words, short or full. */
enum status run_calls(const char *setup);
enum status run_words(const char *setup, bool full);

/* setups.c: whether a set-up is accepted. */
enum status check_setup(const char *file);

/* What the proved reader says of bytes. */
hv_reading reading_of(const struct bytes *setup);

/* Adds which record of a set-up is refused, and why; `is_cut` where it may be longer than what was read. */
void add_refusal(struct bytes *b, const struct bytes *setup, bool is_cut, const hv_reading *r);

/* setup_text.c, calls_text.c: bytes to text, and text to bytes, into a file or to standard output. */
enum status setup_to_text(const char *file, const char *into);
enum status setup_from_text(const char *file, const char *into);
enum status calls_to_text(const char *file, const char *into);
enum status calls_from_text(const char *file, const char *setup, const char *into);

/* The bytes of a set-up's text, and its names; and of one that was read already, of the file of this name. */
enum status read_setup_text(const char *file, struct given *given, struct bytes *setup);
enum status setup_of_text(const char *name, struct bytes *text, struct given *given, struct bytes *setup);

/* The four bytes of a call's line; false after a mistake, which was told. */
bool read_call(struct line *l, uint8_t call[CALL]);

/* try.c: the set-up of a text, and the calls of a text one by one, in words, short or full. */
enum status try_calls(const char *setup, const char *calls, bool full);

/* Whether bytes are a text and not a set-up, or not calls: by the word that they begin with. */
bool is_text(const uint8_t *at, size_t length);

#endif
