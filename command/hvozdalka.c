/* The command of an office: decides calls, checks set-ups, and turns set-ups and calls into text and back. What is decided is the proved library's. */
#include <signal.h>
#include <stdio.h>
#include <string.h>

#include "commands.h"
#include "names.h"

static const char usage[] =
    "usage: hvozdalka COMMAND\n"
    "  try [--full] SETUP [CALLS]   make calls, and tell each in words; set-up and calls are text\n"
    "  run [SETUP]                  decide the calls of standard input, a line for each; SETUP is setup.bin where none is given\n"
    "  words [--full] [SETUP]       the same in words\n"
    "  check SETUP                  say whether a set-up is accepted, or which record is refused\n"
    "  text setup [FILE]            a set-up as text\n"
    "  text calls [FILE]            calls as text\n"
    "  text --bytes setup [FILE]    the set-up of a text\n"
    "  text --bytes calls [FILE]    the calls of a text\n"
    "  help [COMMAND]               this, or more of one command\n"
    "  version                      the version of command and library, and the size of the facility\n"
    "FILE is standard input where it is - or none is given; results are on standard output, or with -o FILE in a file.\n"
    "status: 0 done, 1 set-up or text refused, 2 input or output failed, 64 wrong use\n";

static const struct { const char *name, *text; } helps[] = {
    {"try", "usage: hvozdalka try [--full] SETUP [CALLS]\n"
            "Reads the set-up, makes each call as soon as its line is read, and tells it in words. Both are text (command/TEXT.md); the calls come from\n"
            "standard input where no file is named. Names that the texts give to users, objects and processes are told in place of their numbers.\n"
            "A mistake is told with its line, and the next line is read; status 1 then. With --full each line tells all that `words --full` does.\n"},
    {"run", "usage: hvozdalka run [SETUP]\n"
            "Decides the calls of standard input, four bytes each, and prints a line of numbers for each (docs/SETUP.md). SETUP, the bytes of a set-up,\n"
            "is setup.bin where none is given.\n"},
    {"words", "usage: hvozdalka words [--full] [SETUP]\n"
              "As run, but tells each call in words: what was asked, the number, why not, and what changed; with --full also who calls, all that the rules\n"
              "look at, the answer of each module, and the process after the call (docs/SETUP.md).\n"},
    {"check", "usage: hvozdalka check SETUP\n"
              "Says whether a set-up is accepted, or which record is refused and why. Of a text all mistakes are told.\n"},
    {"text", "usage: hvozdalka text [--bytes] setup|calls [FILE] [-o FILE] [--names SETUP]\n"
             "Tells the bytes of a set-up or of calls as text, or with --bytes makes the bytes of a text (command/TEXT.md). With -o the result is put into\n"
             "the file when it is good, and else the file stays as it was. --names has the text of the set-up whose names the calls use.\n"},
    {"help", "usage: hvozdalka help [COMMAND]\n"},
    {"version", "usage: hvozdalka version\n"},
};

static const char *help_of(const char *name)
{
    for (size_t i = 0; i < sizeof helps / sizeof helps[0]; i++)
        if (strcmp(helps[i].name, name) == 0) return helps[i].text;
    return NULL;
}

static enum status wrong_use(const char *what)
{
    tell("%s", what);
    fputs(usage, stderr);
    return WRONG_USE;
}

static enum status help(const char *name)
{
    const char *text = help_of(name);
    if (text == NULL) text = usage;
    return write_out(text, strlen(text));
}

static enum status version(void)
{
    char line[96];
    int n = snprintf(line, sizeof line, "hvozdalka %d, a facility of %zu bytes\n", HV_VERSION, sizeof(hv_facility));
    return write_out(line, (size_t)n);
}

/* text [--bytes] setup|calls [FILE] [-o FILE] [--names SETUP]; the words may stand in any order behind `text`. */
static enum status text(int count, char **arguments)
{
    const char *words[2] = {NULL, NULL}, *into = NULL, *names = NULL;
    bool to_bytes = false;
    int given = 0;
    for (int i = 0; i < count; i++) {
        bool is_into = strcmp(arguments[i], "-o") == 0, is_names = strcmp(arguments[i], "--names") == 0;
        if (strcmp(arguments[i], "--bytes") == 0) to_bytes = true;
        else if ((is_into || is_names) && i + 1 == count) return wrong_use("-o and --names need a file");
        else if (is_into) into = arguments[++i];
        else if (is_names) names = arguments[++i];
        else if (given < 2) words[given++] = arguments[i];
        else return wrong_use("text needs setup or calls, and at most one file");
    }
    if (given < 1) return wrong_use("text needs setup or calls, and at most one file");
    bool is_setup = strcmp(words[0], "setup") == 0;
    if (!is_setup && strcmp(words[0], "calls") != 0) return wrong_use("text needs setup or calls");
    if (names != NULL && (is_setup || !to_bytes)) return wrong_use("--names is for the text of calls");
    if (is_setup) return to_bytes ? setup_from_text(words[1], into) : setup_to_text(words[1], into);
    return to_bytes ? calls_from_text(words[1], names, into) : calls_to_text(words[1], into);
}

/* Whether --full is among the words, and takes it out. */
static bool take_full(int *count, char **arguments)
{
    int kept = 0, all = *count;
    for (int i = 0; i < all; i++)
        if (strcmp(arguments[i], "--full") != 0) arguments[kept++] = arguments[i];
    *count = kept;
    return kept < all;
}

/* try [--full] SETUP [CALLS] */
static enum status try(int count, char **arguments)
{
    bool full = take_full(&count, arguments);
    if (count < 1 || count > 2) return wrong_use("try needs a set-up, and at most one file of calls");
    if (strcmp(arguments[0], "-") == 0) return wrong_use("the set-up is a file: standard input has the calls");
    return try_calls(arguments[0], count == 2 ? arguments[1] : NULL, full);
}

/* run [SETUP], or words [--full] [SETUP] */
static enum status run(int count, char **arguments, bool in_words)
{
    bool full = in_words && take_full(&count, arguments);
    if (count > 1) return wrong_use("run and words take one set-up");
    if (count == 1 && strcmp(arguments[0], "-") == 0) return wrong_use("the set-up is a file: standard input has the calls");
    const char *setup = count == 1 ? arguments[0] : "setup.bin";
    return in_words ? run_words(setup, full) : run_calls(setup);
}

static bool asks_for_help(int count, char **arguments)
{
    for (int i = 0; i < count; i++)
        if (strcmp(arguments[i], "--help") == 0 || strcmp(arguments[i], "-h") == 0) return true;
    return false;
}

static enum status command(int count, char **arguments)
{
    const char *name = count > 0 ? arguments[0] : "";
    if (asks_for_help(count, arguments)) return help(name);
    if (strcmp(name, "help") == 0 && count == 1) return help("");
    if (strcmp(name, "help") == 0 && count == 2 && help_of(arguments[1]) != NULL) return help(arguments[1]);
    if (strcmp(name, "try") == 0) return try(count - 1, arguments + 1);
    if (strcmp(name, "run") == 0) return run(count - 1, arguments + 1, false);
    if (strcmp(name, "words") == 0) return run(count - 1, arguments + 1, true);
    if (strcmp(name, "check") == 0) return count != 2 ? wrong_use("check needs one set-up") : check_setup(arguments[1]);
    if (strcmp(name, "text") == 0) return text(count - 1, arguments + 1);
    if (count > 1) return wrong_use("no such command, or too much behind it");
    if (strcmp(name, "version") == 0 || strcmp(name, "--version") == 0) return version();
    return wrong_use(count > 0 ? "no such command" : "no command is given");
}

/* Whether the library that is linked is the one of the header. */
static bool fits_library(void)
{
    if (hv_version() == HV_VERSION && hv_facility_size() == HV_FACILITY_SIZE && sizeof(hv_facility) == HV_FACILITY_SIZE) return true;
    tell("made for version %d of the library and a facility of %d bytes, but linked with version %lu and %zu bytes", HV_VERSION, HV_FACILITY_SIZE,
         (unsigned long)hv_version(), hv_facility_size());
    return false;
}

int main(int count, char **arguments)
{
    static char told[8192];
    struct sigaction ignored = {0};
    ignored.sa_handler = SIG_IGN;
    sigaction(SIGPIPE, &ignored, NULL);        /* a closed pipe is an output that fails, and is told */
    sigaction(SIGXFSZ, &ignored, NULL);        /* so is a file that may not grow */
    setvbuf(stderr, told, _IOLBF, sizeof told);        /* a line is one write, so that two programs' lines do not mix */
    if (!fits_library()) return FAILED;
    take_names();
    enum status s = command(count - 1, arguments + 1);
    if (s == FAILED || s == WRONG_USE) return (int)s;
    return close_out() == DONE ? (int)s : FAILED;
}
