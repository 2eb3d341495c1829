/*
 * Hvozdalka: a proved access decision facility, for C.
 *
 * Every function below is total: it ends, for any bytes, any numbers and any facility, and what it returns is given by a definition
 * that it is proved equal to; the definition is named in brackets, and stands in the specs/ folder of the crate named with it. No
 * function allocates, keeps state of its own, or reads or writes anything but its arguments. So threads may use different facilities at
 * once, and may read one at once while nobody changes it; one facility is changed by one thread at a time.
 *
 * Two things are kept apart: a USER has a `clearance`, fixed by the set-up; a PROCESS has a `current` label, a read mark and a write
 * mark, which move with its calls. So are an object's own flags, which it was entered with, and its effective ones, which it has from them
 * and from the directories above it.
 *
 * Each of these, and what an object has, is a label: a level with a set of eight categories (hv_label). One label dominates another when its level
 * is at least as high and its set contains the other's; of two labels neither need dominate the other. A label's categories are not an object's
 * `category`, which is the one that FC looks at.
 *
 * A process carries the number of moves that its current label made by itself: the changes of it, of the level or of the set, by calls of class R, W
 * or B that the process made since its login. A clone begins with its parent's number. HV_SET_LEVEL and signals are no moves, nor is a refused call;
 * with MAC off, or for a trusted owner, there are none. After any calls from a fresh facility the number is at most that of hv_most_moves_at for its
 * owner: the clearance's level plus its number of categories plus 1.
 *
 * hv_enforce_at changes a facility where it is, and so is what a desktop uses. A facility is a value too: hv_enforce takes one and returns the next, which is
 * slower; the two are proved to do the same. So of every two functions here: those whose names end in _at work on a facility where it is. A query reserves
 * nothing: what it says, or whatever else is read of a facility, holds until the next call on that facility, and only enforce permits.
 *
 * The promise of flow (demand 3, docs/PROVED.md) is of facilities that came from a set-up by calls alone. A facility's memory is the caller's to
 * protect: a byte that somebody else writes there is believed.
 *
 * With a signal (HV_SEND_SIGNAL) the desktop may send a value of four bytes, outside the call's bytes: only after enforce returned HV_ACCEPTED, to
 * process t of that call, once. After any other number nothing may be sent. The receiver then counts as having read what the sender has: it holds
 * the sender's matter, and with MAC on its read mark is its current label, unless its owner is trusted. What else passes from one process to another
 * is in no account here, so the desktop must not let it pass.
 *
 * Bytes are passed as a pointer and a length. With length 0 the pointer may be anything, also NULL. What is written, `out` or a facility that is changed
 * where it is, must not overlap any other argument.
 */
#ifndef HVOZDALKA_H
#define HVOZDALKA_H

#include <stdbool.h>
#include <stddef.h>
#include <stdint.h>

#ifdef __cplusplus
extern "C" {
#endif

/* The version of these declarations and the size of a facility, to be compared with hv_version() and hv_facility_size() of the library that is linked. */
#define HV_VERSION 9
#define HV_FACILITY_SIZE 5580

/* Limits: users, processes and objects of a facility, and bytes of a set-up. */
#define HV_USERS 16
#define HV_PROCESSES 32
#define HV_OBJECTS 128
#define HV_SETUP_MOST 1160

/* The bytes that a line of hv_put_block and hv_put_block_at has at most, and `short`. */
#define HV_LINE_MOST 49
#define HV_SHORT_MOST 6

/* The bytes of a buffer for a line in words, and those that a word of hv_request_words and its like, a label of hv_label_words, and the text of
 * hv_why_words, has at most. */
#define HV_WORDS_ROOM 65536
#define HV_WORD_MOST 31
#define HV_LABEL_MOST 13
#define HV_WHY_MOST 212

/* The bytes of stack that a function needs at most, its arguments and its result by value not among them: the caller has these. Read off the machine
 * code by tools/stack, which checks the lists below; 4,096 bytes are for memcpy or memset of the C library. */
#define HV_STACK_AT 8192             /* every function that is in neither of the next two lists */
#define HV_STACK_BY_VALUE 20480      /* hv_query, hv_why, hv_why_words, hv_write_setup, hv_user, hv_process, hv_object, hv_most_moves, hv_effective_flags,
                                      * hv_flag_source, hv_open_marks, hv_refusals, hv_summary, hv_account_start, hv_account_holds */
#define HV_STACK_MOST 98304          /* hv_enforce, hv_read_setup, hv_replay, hv_holds, hv_account_step, hv_put_block, hv_put_words,
                                      * hv_put_short_words */

/* Requests: byte 0 of a call. Byte 1 is the process p, byte 2 the target t, byte 3 the extra e (hv_call). */
enum hv_request {
    HV_ALTER = 0,
    HV_CHANGE_OWNER = 1,
    HV_CLONE = 2,                    /* t is the new process */
    HV_CLOSE = 3,
    HV_CREATE = 4,                   /* e is the kind; for a file or a directory t is the directory that it is made in */
    HV_DELETE = 5,
    HV_DELETE_DATA = 6,
    HV_EXECUTE = 7,
    HV_GET_PERMISSIONS_DATA = 8,
    HV_GET_STATUS_DATA = 9,
    HV_MODIFY_ACCESS_DATA = 10,
    HV_MODIFY_PERMISSIONS_DATA = 11,
    HV_READ = 12,
    HV_READ_OPEN = 13,
    HV_READ_WRITE_OPEN = 14,
    HV_SEARCH = 15,
    HV_SEND_SIGNAL = 16,             /* t is the receiver, a process; four bytes may go with it once it is accepted (above) */
    HV_SET_LEVEL = 17,               /* e is the level, t the set of the new label */
    HV_TERMINATE = 18,
    HV_WRITE = 19,
    HV_WRITE_OPEN = 20,
    HV_LOGIN = 21                    /* e is the user */
};

/* Numbers: what a call or a set-up comes to. */
enum hv_number {
    HV_ACCEPTED = 0,
    HV_NO_REQUEST = 1,               /* the request is above 21 */
    HV_NO_PROCESS_NUMBER = 2,        /* p, or for clone and send-signal t, is above 31; or the seat is not 0 */
    HV_NOT_RUNNING = 3,              /* p, or for send-signal t, does not run */
    HV_NOT_FREE = 4,                 /* the new process number runs */
    HV_NO_USER = 5,                  /* login: e is no user */
    HV_NOT_LIVE = 6,                 /* t is no live object */
    HV_NOT_OF_KIND = 7,              /* an object of t's kind does not have the request */
    HV_NO_KIND = 8,                  /* create: e is above 3 */
    HV_NOT_OPEN = 9,                 /* t is not open in that mode at p */
    HV_FULL = 10,                    /* create: 128 objects are entered */
    HV_NO_LEVEL = 11,                /* set-level: e is above 15 */
    HV_DENIED = 12,                  /* the combined answer is not granted; counted */
    HV_UNDEFINED_ANSWER = 13,        /* the combined answer is undefined; counted */
    HV_SETUP_LENGTH = 14,            /* set-up: the length is no positive multiple of 8, or above 1,160 */
    HV_SETUP_PLACE = 15,             /* set-up: a record's kind does not fit its place */
    HV_SETUP_FULL = 16,              /* set-up: more than 16 users or 128 objects */
    HV_SETUP_BYTE = 17,              /* set-up: a byte is not allowed */
    HV_NO_ROOM = 18,                 /* writing a set-up: the buffer does not hold it */
    HV_SETUP_PARENT = 19             /* set-up: byte 6 of an object is neither 0 nor the number plus 1 of an earlier directory */
};

/* Answers of the modules. */
enum hv_answer { HV_NOT_CARED = 0, HV_GRANTED = 1, HV_NOT_GRANTED = 2, HV_UNDEFINED = 3 };

/* Kinds of object; roles; how an object is open; the value of an object's level, or of its category for FC, that is not set. */
enum hv_kind { HV_FILE = 0, HV_DIRECTORY = 1, HV_CHANNEL = 2, HV_CONTROL_DATA = 3 };
enum hv_role { HV_GENERAL = 0, HV_SECURITY_OFFICER = 1, HV_SYSTEM_ADMINISTRATOR = 2 };
enum hv_marks { HV_OPEN_READING = 1, HV_OPEN_WRITING = 2 };
#define HV_UNSET 255

/* Classes of requests (hv_class): the kind does not have the request; it reads; it writes; both; neither. */
enum hv_request_class { HV_CLASS_ABSENT = 0, HV_CLASS_R = 1, HV_CLASS_W = 2, HV_CLASS_B = 3, HV_CLASS_N = 4 };

/* Kinds of set-up record: byte 0 of one. Categories that FC looks at, and data types, of an object. */
enum hv_record { HV_USER_RECORD = 1, HV_OBJECT_RECORD = 2, HV_SWITCHES_RECORD = 3 };
enum hv_category { HV_CATEGORY_GENERAL = 0, HV_CATEGORY_SECURITY = 1, HV_CATEGORY_SYSTEM = 2 };
enum hv_data_type { HV_NO_TYPE = 0, HV_SECURITY_INFORMATION = 1 };

/* The set of a label that has all eight categories. */
#define HV_ALL_CATEGORIES 255

/* Flags of an object, added up in a byte. */
enum hv_flag {
    HV_READ_ONLY = 1,                /* forbids W, B and write */
    HV_NO_EXECUTE = 2,               /* forbids execute */
    HV_NO_DELETE = 4,                /* forbids delete; never inherited */
    HV_SEARCH_ONLY = 8,              /* of a directory: forbids every request on it but search */
    HV_ADD_INHERITED = 128           /* the parent's effective flags, without no-delete, are added to the object's own */
};

/* No object was given. */
#define HV_NO_OBJECT 255

/* A level and a set of categories: bit 0 of the set is the first category, bit 7 the eighth. */
typedef struct hv_label { uint8_t level, set; } hv_label;

/* The whole state: switches, users, objects, processes, opens, the counters of refusals, flags and parents, the processes' moves, and the sets of
 * all labels, whose levels stand before: 5,580 bytes. Three bytes before `refusals` and three at the end are padding. */
typedef struct hv_facility {
    uint8_t mac, fc, sim;                       /* switches, each 0 or 1 */
    uint8_t users;                              /* how many users there are */
    uint8_t clearances[HV_USERS];               /* by user number: the clearance's level */
    uint8_t roles[HV_USERS];
    uint8_t trusts[HV_USERS];
    uint8_t entered;                            /* how many objects were entered, deleted ones included */
    uint8_t lives[HV_OBJECTS];                  /* by object number */
    uint8_t kinds[HV_OBJECTS];
    uint8_t levels[HV_OBJECTS];                 /* 0 to 15, or HV_UNSET */
    uint8_t categories[HV_OBJECTS];             /* FC's, not of the label */
    uint8_t datatypes[HV_OBJECTS];
    uint8_t runnings[HV_PROCESSES];             /* by process number */
    uint8_t owners[HV_PROCESSES];
    uint8_t currents[HV_PROCESSES];             /* the levels of the three labels */
    uint8_t readmarks[HV_PROCESSES];
    uint8_t writemarks[HV_PROCESSES];
    uint8_t automatics[HV_PROCESSES];
    uint8_t opens[HV_PROCESSES * HV_OBJECTS];   /* at process * 128 + object */
    uint32_t refusals[HV_USERS];                /* by user number: calls refused with 12 or 13 of processes that the user owned */
    uint8_t ff;                                 /* the fourth switch, 0 or 1 */
    uint8_t flags[HV_OBJECTS];                  /* by object number: its own flags */
    uint8_t parents[HV_OBJECTS];                /* by object number: the parent directory's number plus 1, or 0 for none */
    uint8_t moves[HV_PROCESSES];                /* by process number: the moves of its current label; at 255 it stays, which only bytes put in by C reach */
    uint8_t clearancesets[HV_USERS];            /* by user number: the clearance's set */
    uint8_t sets[HV_OBJECTS];                   /* by object number: its label's set, 0 where the level is unset */
    uint8_t currentsets[HV_PROCESSES];          /* by process number: the sets of the three labels */
    uint8_t readsets[HV_PROCESSES];
    uint8_t writesets[HV_PROCESSES];
} hv_facility;

/* A call: request, process p, target t, extra e, and the seat that process p is at. There is one seat, 0. Another has no process, so that a call of it is
 * refused with HV_NO_PROCESS_NUMBER, or with HV_NO_REQUEST, and changes nothing. [call_of, hvozdalka/Numbers; OtherSeats, hvozdalka/Seats] */
typedef struct hv_call { uint8_t request, process, target, extra, seat; } hv_call;

/* What a call came to: refusal number, answers of MAC, FC and SIM, the combination of all four modules' answers, the object that an accepted
 * create gave (else 255), and the answer of FF, the file flags. */
typedef struct hv_outcome { uint8_t number, mac, fc, sim, combined, object, ff; } hv_outcome;

/* The conditions that failed where a call is refused with 12 or 13, by module. The label that they are about is object t's; of HV_SET_LEVEL it is the one
 * wanted; of a request of class R it is the least one above object t's and the current one. The owner is the user who owns process p. */
typedef struct hv_failed {
    bool unset;                                 /* MAC: the object's level is unset */
    bool fixed;                                 /* MAC: automatic is off, and the current label would have to move */
    bool clearance, writemark;                  /* MAC: the owner's clearance does not dominate the label; the write mark does not */
    bool readmark;                              /* MAC: the label does not dominate the read mark */
    bool receiver;                              /* MAC: the current labels of the sender and the receiver differ */
    bool nocategory, category;                  /* FC: the object's category is unset; it is set, not general, and not that of the owner's role */
    bool datatype;                              /* SIM: the object is security information, and the owner no security officer */
    uint8_t flag;                               /* FF: the first flag that forbids, of hv_flag, or 0; hv_flag_source_at tells whose own it is */
} hv_failed;

typedef struct hv_enforced { hv_facility facility; hv_outcome outcome; } hv_enforced;
typedef struct hv_reading { hv_facility facility; uint8_t number; uint16_t index; } hv_reading;
typedef struct hv_setup_numbers { uint8_t number; uint16_t index; } hv_setup_numbers;
typedef struct hv_held { bool holds; uint8_t number; uint16_t index; } hv_held;

/* The account of matter: the next object number, kinds by object number, and the sets of object numbers that objects and processes hold, two words each. */
typedef struct hv_account {
    uint8_t next, kinds[HV_OBJECTS];
    uint64_t objects[2 * HV_OBJECTS], processes[2 * HV_PROCESSES];
} hv_account;

typedef struct hv_writing { size_t length; uint8_t number; } hv_writing;
typedef struct hv_printed { hv_facility facility; size_t length; } hv_printed;

typedef struct hv_user_record { hv_label clearance; uint8_t role, trusted; } hv_user_record;
typedef struct hv_process_record { uint8_t running, owner; hv_label current, readmark, writemark; uint8_t automatic, moves; } hv_process_record;
typedef struct hv_object_record { uint8_t live, kind; hv_label label; uint8_t category, datatype, flags, parent; } hv_object_record;
typedef struct hv_summary_record { uint8_t mac, fc, sim, users, entered, ff; } hv_summary_record;

/* ON A FACILITY WHERE IT IS, without a copy. Its bytes are the facility of the definitions [facility_at, in_place/Layout]; where one is changed, its bytes
 * become those of the next, and the six bytes of padding are untouched. */

/* Reads a set-up into a facility. Number 0 and the fresh facility; or the number 14 to 17 or 19, the index of the record refused (0 with 14), and the
 * facility of a switches record with all off. [read_setup, rules/Setup] */
hv_setup_numbers hv_read_setup_at(const uint8_t *bytes, size_t length, hv_facility *f);

/* Writes a facility's set-up into `out`: switches, users, live objects in order, each with its parent by the new number (0 where the parent
 * was deleted). Number 0 and the length, and later bytes are untouched; or number 18 and length 0 where `out` is too short, and it is
 * untouched. `out` has no byte of the facility. [write_setup, rules/Setup] */
hv_writing hv_write_setup_at(const hv_facility *f, uint8_t *out, size_t length);

/* What hv_enforce_at would answer; nothing changes. [query, rules/Calls] */
hv_outcome hv_query_at(const hv_facility *f, hv_call call);

/* A call: what it came to, and the facility becomes the one after it. A refused call changes nothing but, with 12 and 13, the counter of refusals of the
 * user who owns the calling process; a refused signal carries nothing, and nothing may be sent with it. An accepted signal changes at most the read mark
 * of process t, also where it is p itself. [query, after, rules/Calls] */
hv_outcome hv_enforce_at(hv_facility *f, hv_call call);

/* Which conditions fail where this call is refused with 12 or 13; all false and flag 0 with any other number. It may be asked before the refused call or
 * after it, which changes none of them. [failed_of, reasons/Reasons] */
hv_failed hv_why_at(const hv_facility *f, hv_call call);

/* The same in words, each as ` (label not under the clearance)` or ` (read-only of object 3)`, at the front of `out`: how many bytes; what does not fit
 * is cut off, and HV_WHY_MOST hold any. [why_text, names/Reasons] */
size_t hv_why_words_at(const hv_facility *f, hv_call call, uint8_t *out, size_t length);

/* The lines that the run program prints for a block of calls of four bytes each, the first of which has index `first`, stored at the front of `out`, and
 * the facility becomes the one after them: how many bytes the lines have. What does not fit is cut off: HV_LINE_MOST for each call and HV_SHORT_MOST
 * hold it all. Where `first` is 2^63 or more no call is made. [block_text, facility_after, lines/Blocks] */
size_t hv_put_block_at(hv_facility *f, uint64_t first, const uint8_t *calls, size_t calls_length, uint8_t *out, size_t out_length);

/* A call and its line in words, with its newline, at the front of `out`, which has HV_WORDS_ROOM bytes; the facility becomes the one after the call: how
 * many bytes the line has. The first is the full line, which the program run_words prints; the second the short one: what was asked, what it came to, why
 * not, and what changed. [sentence, words/Sentences; short_sentence, words/Short; after, rules/Calls] */
size_t hv_put_words_at(hv_facility *f, uint64_t index, hv_call call, uint8_t *out);
size_t hv_put_short_words_at(hv_facility *f, uint64_t index, hv_call call, uint8_t *out);

/* A user, a process, an object; all fields are 0 for a number that is none. A process's `moves` is how often its current label moved by itself, at
 * most hv_most_moves_at of its owner after any calls from a fresh facility. [user_of, process_of, object_of, state/State] */
hv_user_record hv_user_at(const hv_facility *f, uint8_t user);
hv_process_record hv_process_at(const hv_facility *f, uint8_t process);
hv_object_record hv_object_at(const hv_facility *f, uint8_t object);

/* How often the current label of a process of that user moves by itself at most: the level of the user's clearance plus its number of categories
 * plus 1; 1 for a number that is none. [moves_bound, rules/Histories, of clearance_of, state/State] */
uint32_t hv_most_moves_at(const hv_facility *f, uint8_t user);

/* The effective flags of object t, whether FF is on or off: its own and, with HV_ADD_INHERITED among these, the effective ones of its parent
 * without no-delete, where the parent is not deleted; 0 for a number above 127. [effective, rules/FileFlags] */
uint8_t hv_effective_flags_at(const hv_facility *f, uint8_t t);

/* Where object t has a flag from, one of hv_flag: the number of the object whose own flag it is, t itself or the nearest object up the chain;
 * HV_NO_OBJECT where the flag is not among t's effective ones. [flag_source, rules/FileFlags] */
uint8_t hv_flag_source_at(const hv_facility *f, uint8_t t, uint8_t flag);

/* How a process has an object open: 1 for reading, 2 for writing, 3 for both, else 0; 0 for a number that is none. [open_marks, hvozdalka/Numbers] */
uint8_t hv_open_marks_at(const hv_facility *f, uint8_t process, uint8_t object);

/* How many calls were refused with 12 or 13 whose caller the user owned when the call was made, up to 4,294,967,295; 0 for a number that is
 * none. While no user's is there, the sixteen add up to all 12s and 13s. [refusals_of, state/State] */
uint32_t hv_refusals_at(const hv_facility *f, uint8_t user);

/* Switches, and how many users there are and objects were entered. [summary_of, hvozdalka/Numbers] */
hv_summary_record hv_summary_at(const hv_facility *f);

/* THE SAME BY VALUE: of a facility that is handed in, and back where a call changes it. [the same definitions, of f] */
hv_reading hv_read_setup(const uint8_t *bytes, size_t length);
hv_writing hv_write_setup(hv_facility f, uint8_t *out, size_t length);
hv_outcome hv_query(hv_facility f, hv_call call);
hv_enforced hv_enforce(hv_facility f, hv_call call);
hv_failed hv_why(hv_facility f, hv_call call);
size_t hv_why_words(hv_facility f, hv_call call, uint8_t *out, size_t length);
hv_printed hv_put_block(hv_facility f, uint64_t first, const uint8_t *calls, size_t calls_length, uint8_t *out, size_t out_length);
hv_printed hv_put_words(hv_facility f, uint64_t index, hv_call call, uint8_t *out);
hv_printed hv_put_short_words(hv_facility f, uint64_t index, hv_call call, uint8_t *out);
hv_user_record hv_user(hv_facility f, uint8_t user);
hv_process_record hv_process(hv_facility f, uint8_t process);
hv_object_record hv_object(hv_facility f, uint8_t object);
uint32_t hv_most_moves(hv_facility f, uint8_t user);
uint8_t hv_effective_flags(hv_facility f, uint8_t t);
uint8_t hv_flag_source(hv_facility f, uint8_t t, uint8_t flag);
uint8_t hv_open_marks(hv_facility f, uint8_t process, uint8_t object);
uint32_t hv_refusals(hv_facility f, uint8_t user);
hv_summary_record hv_summary(hv_facility f);

/* OF LISTS OF CALLS. The facility of a set-up after calls of four bytes each; one to three left-over bytes are no call. Number and index are those of
 * hv_read_setup: with a refused set-up the calls are made on a facility with all switches off. [replay_numbers, hvozdalka/Numbers] */
hv_reading hv_replay(const uint8_t *setup, size_t setup_length, const uint8_t *calls, size_t calls_length);

/* Whether object x holds the matter of object c after the calls, and number and index as hv_replay. An accepted signal carries: its receiver holds what it
 * held and what the sender holds, with MAC on or off, whoever owns them, and what it writes later holds it too. [held_numbers, hvozdalka/Numbers] */
hv_held hv_holds(const uint8_t *setup, size_t setup_length, const uint8_t *calls, size_t calls_length, uint8_t x, uint8_t c);

/* The same account of matter, kept along with the calls instead of being worked out from all of them: of a fresh facility, after each call with whether it
 * was accepted (number 0), and whether object x holds the matter of c: after all calls what hv_holds answers. [start_of, step_of, held_by, matter/LedgerSteps;
 * held_exactly, matter/Laws/AfterCalls] */
hv_account hv_account_start(hv_facility f);
hv_account hv_account_step(hv_account account, hv_call call, bool accepted);
bool hv_account_holds(hv_account account, uint8_t x, uint8_t c);

/* WORDS. A refused set-up, with its newline, at the front of `out`, which has HV_WORDS_ROOM bytes: how many bytes. [setup_sentence, words/Sentences] */
size_t hv_put_setup_words(uint8_t number, uint16_t index, uint8_t *out);

/* The words for a request, a kind, an answer, a flag, a role, a category for FC and a data type, and what a refusal number says, at the front of `out`,
 * without a byte 0 behind them: how many bytes; what does not fit is cut off, and HV_WORD_MOST hold any. [request_word, kind_word, answer_word, flag_word,
 * role_word, category_word, data_type_word, number_word, names/Words] */
size_t hv_request_words(uint8_t request, uint8_t *out, size_t length);
size_t hv_kind_words(uint8_t kind, uint8_t *out, size_t length);
size_t hv_answer_words(uint8_t answer, uint8_t *out, size_t length);
size_t hv_flag_words(uint8_t flag, uint8_t *out, size_t length);
size_t hv_number_words(uint8_t number, uint8_t *out, size_t length);
size_t hv_role_words(uint8_t role, uint8_t *out, size_t length);
size_t hv_category_words(uint8_t category, uint8_t *out, size_t length);
size_t hv_data_type_words(uint8_t data_type, uint8_t *out, size_t length);

/* A label in words, in the same way: its level, or `unset`, and behind it the letters of its categories or `all`, as `3`, `3 ab`, `15 all`; HV_LABEL_MOST
 * hold any. [label_word, names/Words] */
size_t hv_label_words(hv_label label, uint8_t *out, size_t length);

/* OF REQUESTS, without a facility. The class of a request on an object of this kind, one of hv_request_class; of a create in a directory the directory is
 * the object. [class_code of class_of, rules/Requests] */
uint8_t hv_class(uint8_t request, uint8_t kind);

/* Whether the target t of a request is an object; `extra` is the kind that a create makes. [needs_object of action_of, rules/Requests] */
bool hv_needs_object(uint8_t request, uint8_t extra);

/* WHAT THE LIBRARY WAS BUILT WITH: compare with HV_VERSION and HV_FACILITY_SIZE before anything else. */
uint32_t hv_version(void);
size_t hv_facility_size(void);

#ifdef __cplusplus
}
#endif

#endif
