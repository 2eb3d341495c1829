/* The run program of document 01, and the same in words: each read is answered at once, so that another program can drive it. */
#include <stdlib.h>
#include <string.h>
#include <unistd.h>

#include "commands.h"

enum { BLOCK = 4096, LINES = BLOCK / 4 * HV_LINE_MOST + HV_SHORT_MOST };

/* What answers a block of calls, the first of which has index `first`; left-over bytes come alone, as the last block. */
typedef enum status answer(hv_facility *f, uint64_t first, const uint8_t *calls, size_t length);

static enum status answer_lines(hv_facility *f, uint64_t first, const uint8_t *calls, size_t length)
{
    static uint8_t out[LINES];
    return write_out(out, hv_put_block_at(f, first, calls, length, out, sizeof out));
}

static enum status tell_text(const char *name, const char *instead)
{
    tell("%s: this is text, and calls and set-ups are bytes: %s", name, instead);
    return REFUSED;
}

/* Answers what each read completed, and keeps up to three bytes for the next. A read that fails is not the end of the calls. A text is not taken for calls. */
static enum status answer_input(hv_facility *f, answer *say)
{
    uint8_t in[BLOCK];
    size_t kept = 0;
    uint64_t first = 1;
    for (;;) {
        ssize_t got = read_some(STDIN_FILENO, in + kept, sizeof in - kept);
        if (got < 0) return failed("standard input");
        if (got == 0) break;
        if (first == 1 && kept == 0 && is_text(in, (size_t)got))
            return tell_text("standard input", "hvozdalka text --bytes calls makes them of it, and hvozdalka try takes both as text");
        size_t have = kept + (size_t)got, whole = have - have % 4;
        if (whole > 0 && say(f, first, in, whole) != DONE) return FAILED;
        first += whole / 4;
        kept = have - whole;
        memmove(in, in + whole, kept);
    }
    return kept > 0 ? say(f, first, in, kept) : DONE;
}

/* A set-up that cannot be read counts as empty, as in document 01; why is told beside. The status is that of a refused set-up, or of one that is not read. */
static hv_reading read_setup(const char *file, enum status *refused)
{
    struct bytes setup = {0};
    *refused = read_whole(file, SETUP_READ, &setup) ? REFUSED : failed(name_of(file));
    hv_reading r = reading_of(&setup);
    if (is_text(setup.at, setup.length)) tell_text(name_of(file), "hvozdalka text --bytes setup makes one of it, and hvozdalka try takes both as text");
    free(setup.at);
    return r;
}

enum status run_calls(const char *setup)
{
    enum status refused;
    hv_reading r = read_setup(setup, &refused);
    if (r.number == HV_ACCEPTED) return answer_input(&r.facility, answer_lines);
    struct bytes line = {0};
    add_text(&line, "set-up %d %d\n", r.number, r.index);
    enum status written = write_out(line.at, line.length);
    free(line.at);
    return written == DONE ? refused : written;
}

/* What enforces a call and puts its line: the full one, or the short one. */
typedef size_t put_line(hv_facility *f, uint64_t index, hv_call call, uint8_t *out);

/* Lines are written once no further one may fit, and at the block's end. */
static enum status answer_words(hv_facility *f, uint64_t first, const uint8_t *calls, size_t length, put_line *put)
{
    static uint8_t out[2 * HV_WORDS_ROOM];
    size_t place = 0;
    if (length < 4) return answer_lines(f, first, calls, length);       /* `short` is the same */
    for (size_t i = 0; i < length; i += 4) {
        place += put(f, first + i / 4, (hv_call){calls[i], calls[i + 1], calls[i + 2], calls[i + 3], 0}, out + place);
        if (place > HV_WORDS_ROOM) {
            if (write_out(out, place) != DONE) return FAILED;
            place = 0;
        }
    }
    return write_out(out, place);
}

static enum status answer_short(hv_facility *f, uint64_t first, const uint8_t *calls, size_t length)
{
    return answer_words(f, first, calls, length, hv_put_short_words_at);
}

static enum status answer_full(hv_facility *f, uint64_t first, const uint8_t *calls, size_t length)
{
    return answer_words(f, first, calls, length, hv_put_words_at);
}

enum status run_words(const char *setup, bool full)
{
    static uint8_t line[HV_WORDS_ROOM];
    enum status refused;
    hv_reading r = read_setup(setup, &refused);
    if (r.number == HV_ACCEPTED) return answer_input(&r.facility, full ? answer_full : answer_short);
    enum status written = write_out(line, hv_put_setup_words(r.number, r.index, line));
    return written == DONE ? refused : written;
}
