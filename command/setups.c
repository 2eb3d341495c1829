/* Whether the proved reader accepts a set-up, and which record it refuses. */
#include <stdlib.h>
#include <string.h>

#include "commands.h"
#include "names.h"

hv_reading reading_of(const struct bytes *setup)
{
    return hv_read_setup(setup->at, setup->length);
}

void add_refusal(struct bytes *b, const struct bytes *setup, bool is_cut, const hv_reading *r)
{
    if (r->number == HV_SETUP_LENGTH) {
        /* No record is at fault. */
        add_text(b, "refused: %d ", r->number);
        add_number(b, r->number);
        add_text(b, " (%zu byte%s%s; a multiple of %d from %d to %d)", setup->length, setup->length == 1 ? "" : "s",
                 is_cut ? " or more" : "", RECORD, RECORD, HV_SETUP_MOST);
        return;
    }
    add_text(b, "refused at record %d (", r->index);
    add_record(b, setup, r->index);
    add_text(b, "): %d ", r->number);
    add_number(b, r->number);
}

static void add_count(struct bytes *b, unsigned count, const char *what)
{
    add_text(b, "%u %s%s", count, what, count == 1 ? "" : "s");
}

static enum status say_accepted(const char *file, const hv_facility *f, const char *of_what)
{
    struct bytes line = {0};
    hv_summary_record s = hv_summary_at(f);
    add(&line, name_of(file), strlen(name_of(file)));
    add_text(&line, ": %saccepted: ", of_what);
    add_count(&line, s.users, "user");
    add_text(&line, ", ");
    add_count(&line, s.entered, "object");
    add_text(&line, "\n");
    enum status written = write_out(line.at, line.length);
    free(line.at);
    return written;
}

/* The set-up of a text: all its mistakes are told, with their lines. */
static enum status check_text(const char *file, struct bytes *text)
{
    struct bytes setup = {0};
    struct given given = {0};
    enum status s = setup_of_text(name_of(file), text, &given, &setup);
    if (s == DONE) {
        hv_reading r = reading_of(&setup);
        s = say_accepted(file, &r.facility, "text, ");
    }
    free(setup.at);
    return s;
}

enum status check_setup(const char *file)
{
    struct bytes setup = {0}, line = {0};
    if (!read_whole(file, SETUP_READ, &setup)) return failed(name_of(file));
    if (is_text(setup.at, setup.length)) {
        enum status told = check_text(file, &setup);
        free(setup.at);
        return told;
    }
    hv_reading r = reading_of(&setup);
    enum status s;
    if (r.number == HV_ACCEPTED) {
        s = say_accepted(file, &r.facility, "");
    } else {
        add(&line, name_of(file), strlen(name_of(file)));
        add_text(&line, ": ");
        add_refusal(&line, &setup, setup.length == SETUP_READ, &r);
        add_text(&line, "\n");
        s = write_out(line.at, line.length) == DONE ? REFUSED : FAILED;
    }
    free(line.at);
    free(setup.at);
    return s;
}
