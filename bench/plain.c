#include "plain.h"

#include <string.h>

/* Class by kind and request: R reads, W writes, B both, N no condition, 0 absent. */
enum { R = 1, W = 2, B = 3, N = 4 };

static const uint8_t classes[4][22] = {
    [HV_FILE] = {[5] = W, [6] = W, [7] = R, [12] = N, [13] = R, [14] = B, [19] = N, [20] = W, [3] = N},
    [HV_DIRECTORY] = {[4] = W, [5] = W, [12] = R, [15] = R, [19] = W},
    [HV_CHANNEL] = {[0] = W, [5] = W, [12] = N, [14] = B, [19] = N, [3] = N},
    [HV_CONTROL_DATA] = {[1] = W, [5] = W, [8] = R, [9] = R, [10] = W, [11] = W},
};

/* What MAC does to the calling process. */
struct move { hv_label current, readmark, writemark; uint8_t automatic, moves; };

static const hv_label bottom = {0, 0}, top = {15, HV_ALL_CATEGORIES};

static inline uint8_t most(uint8_t a, uint8_t b) { return a < b ? b : a; }
static inline uint8_t least(uint8_t a, uint8_t b) { return a < b ? a : b; }

static inline int equal(hv_label a, hv_label b) { return a.level == b.level && a.set == b.set; }
static inline int dominated(hv_label a, hv_label by) { return a.level <= by.level && (a.set & ~by.set) == 0; }
static inline hv_label above_both(hv_label a, hv_label b) { return (hv_label){most(a.level, b.level), (uint8_t)(a.set | b.set)}; }
static inline hv_label below_both(hv_label a, hv_label b) { return (hv_label){least(a.level, b.level), (uint8_t)(a.set & b.set)}; }

static inline hv_label clearance_of(const hv_facility *f, uint8_t u) { return (hv_label){f->clearances[u], f->clearancesets[u]}; }
static inline hv_label label_of(const hv_facility *f, uint8_t t) { return (hv_label){f->levels[t], f->sets[t]}; }
static inline hv_label current_of(const hv_facility *f, uint8_t p) { return (hv_label){f->currents[p], f->currentsets[p]}; }

/* What R, W and B do to the current label: where it changes it has moved once more; at 255 the number stays. */
static inline void move_to(struct move *m, hv_label label)
{
    m->moves = (uint8_t)(m->moves + (!equal(label, m->current) && m->moves != UINT8_MAX));
    m->current = label;
}

static inline int needs_object(uint8_t request, uint8_t extra)
{
    switch (request) {
    case HV_CLONE: case HV_SEND_SIGNAL: case HV_SET_LEVEL: case HV_TERMINATE: case HV_LOGIN: return 0;
    case HV_CREATE: return extra < 2;
    default: return 1;
    }
}

/* The questions 1 to 11, in order. */
static inline uint8_t questions(const hv_facility *f, uint8_t request, uint8_t p, uint8_t t, uint8_t e)
{
    if (request > 21) return HV_NO_REQUEST;
    if (p > 31 || ((request == HV_CLONE || request == HV_SEND_SIGNAL) && t > 31)) return HV_NO_PROCESS_NUMBER;
    if (request != HV_LOGIN && f->runnings[p] != 1) return HV_NOT_RUNNING;
    if (request == HV_SEND_SIGNAL && f->runnings[t] != 1) return HV_NOT_RUNNING;
    if (request == HV_LOGIN && f->runnings[p] == 1) return HV_NOT_FREE;
    if (request == HV_CLONE && f->runnings[t] == 1) return HV_NOT_FREE;
    if (request == HV_LOGIN && e >= f->users) return HV_NO_USER;
    if (request == HV_CREATE && e > 3) return HV_NO_KIND;
    if (needs_object(request, e)) {
        if (t >= HV_OBJECTS || f->lives[t] != 1) return HV_NOT_LIVE;
        uint8_t class = f->kinds[t] < 4 ? classes[f->kinds[t]][request] : 0;
        if (class == 0) return HV_NOT_OF_KIND;
        if (class == N) {
            uint8_t marks = f->opens[p * HV_OBJECTS + t];
            uint8_t wanted = request == HV_READ ? HV_OPEN_READING : request == HV_WRITE ? HV_OPEN_WRITING : HV_OPEN_READING | HV_OPEN_WRITING;
            if ((marks & wanted) == 0) return HV_NOT_OPEN;
        }
    }
    if (request == HV_CREATE && f->entered >= HV_OBJECTS) return HV_FULL;
    if (request == HV_SET_LEVEL && e > 15) return HV_NO_LEVEL;
    return HV_ACCEPTED;
}

/* Whether a label is between the marks and under the clearance. */
static inline int between(const struct move *m, hv_label label, hv_label clearance)
{
    return dominated(m->readmark, label) && dominated(label, m->writemark) && dominated(label, clearance);
}

static inline uint8_t class_answer(uint8_t class, hv_label label, hv_label clearance, struct move *m)
{
    switch (class) {
    case R: {
        hv_label above = above_both(m->current, label);
        if (!dominated(label, m->current) && !(m->automatic == 1 && dominated(above, m->writemark) && dominated(above, clearance))) return HV_NOT_GRANTED;
        move_to(m, above);
        m->readmark = above_both(m->readmark, label);
        return HV_GRANTED;
    }
    case W: case B:
        if (!equal(label, m->current) && !(m->automatic == 1 && between(m, label, clearance))) return HV_NOT_GRANTED;
        move_to(m, label);
        if (class == B) m->readmark = m->writemark = label;
        else m->writemark = below_both(m->writemark, label);
        return HV_GRANTED;
    default: return HV_GRANTED;
    }
}

static inline uint8_t mac_answer(const hv_facility *f, uint8_t request, uint8_t p, uint8_t t, uint8_t e, struct move *m)
{
    hv_label clearance = bottom;
    uint8_t trusted = 0;
    if (request == HV_LOGIN || request == HV_CLONE || request == HV_TERMINATE) return HV_GRANTED;
    if (f->owners[p] < HV_USERS) {
        clearance = clearance_of(f, f->owners[p]);
        trusted = f->trusts[f->owners[p]];
    }
    if (request == HV_SET_LEVEL) {
        hv_label wanted = {e, t};
        if (!between(m, wanted, clearance)) return HV_NOT_GRANTED;
        m->current = wanted;
        m->automatic = 0;
        return HV_GRANTED;
    }
    if (request == HV_SEND_SIGNAL) return trusted == 1 || equal(m->current, current_of(f, t)) ? HV_GRANTED : HV_NOT_GRANTED;
    if (!needs_object(request, e)) return HV_GRANTED;
    if (f->levels[t] == HV_UNSET) return HV_UNDEFINED;
    if (trusted == 1) return HV_GRANTED;
    return class_answer(classes[f->kinds[t]][request], label_of(f, t), clearance, m);
}

/* The own flags and, as long as an object has 128 and a live parent, those of the next one up, without no-delete. */
uint8_t plain_effective_flags(const hv_facility *f, uint8_t t)
{
    uint8_t flags = f->flags[t], own = flags;
    while (own & HV_ADD_INHERITED) {
        uint8_t parent = f->parents[t];
        if (parent == 0 || parent > HV_OBJECTS || f->lives[parent - 1] != 1) break;
        t = parent - 1;
        own = f->flags[t];
        flags |= own & ~HV_NO_DELETE;
    }
    return flags;
}

uint32_t plain_most_moves(const hv_facility *f, uint8_t user)
{
    uint32_t moves = 1;
    if (user >= HV_USERS) return moves;
    for (uint8_t set = f->clearancesets[user]; set != 0; set &= (uint8_t)(set - 1)) moves++;
    return moves + f->clearances[user];
}

uint8_t plain_flag_source(const hv_facility *f, uint8_t t, uint8_t flag)
{
    for (;;) {
        uint8_t own = f->flags[t], parent = f->parents[t];
        if (own & flag) return t;
        if (flag == HV_NO_DELETE || !(own & HV_ADD_INHERITED) || parent == 0 || parent > HV_OBJECTS || f->lives[parent - 1] != 1) return HV_NO_OBJECT;
        t = parent - 1;
    }
}

/* The flags that forbid a request of that class on an object of that kind. */
static inline uint8_t forbidding(uint8_t kind, uint8_t class, uint8_t request)
{
    uint8_t flags = class == W || class == B || request == HV_WRITE ? HV_READ_ONLY : 0;
    if (request == HV_EXECUTE) flags |= HV_NO_EXECUTE;
    if (request == HV_DELETE) flags |= HV_NO_DELETE;
    if (kind == HV_DIRECTORY && request != HV_SEARCH) flags |= HV_SEARCH_ONLY;
    return flags;
}

static inline uint8_t combined(uint8_t a, uint8_t b, uint8_t c, uint8_t d) { return most(most(a, b), most(c, d)); }

/* Number and answers, and the move that MAC makes where the call is accepted. The compiler does not inline it by itself: then its result is put
 * together in memory and copied. */
#ifdef INLINED
__attribute__((always_inline))
#endif
static inline hv_outcome judge(const hv_facility *f, uint8_t request, uint8_t p, uint8_t t, uint8_t e, struct move *m)
{
    hv_outcome o = {questions(f, request, p, t, e), HV_NOT_CARED, HV_NOT_CARED, HV_NOT_CARED, HV_NOT_CARED, HV_NO_OBJECT, HV_NOT_CARED};
    if (o.number != HV_ACCEPTED) return o;
    *m = (struct move){current_of(f, p), {f->readmarks[p], f->readsets[p]}, {f->writemarks[p], f->writesets[p]}, f->automatics[p], f->moves[p]};
    if (f->mac == 1) o.mac = mac_answer(f, request, p, t, e, m);
    if (needs_object(request, e)) {
        uint8_t owner = f->owners[p], role = owner < HV_USERS ? f->roles[owner] : 0, category = f->categories[t];
        if (f->fc == 1) o.fc = category == HV_UNSET ? HV_UNDEFINED : category == 0 || category == role ? HV_GRANTED : HV_NOT_GRANTED;
        uint8_t class = classes[f->kinds[t]][request];
        if (f->sim == 1 && f->datatypes[t] == 1 && (class == W || class == B || request == HV_WRITE))
            o.sim = role == HV_SECURITY_OFFICER ? HV_GRANTED : HV_NOT_GRANTED;
        if (f->ff == 1) {
            uint8_t wanted = forbidding(f->kinds[t], class, request);
            if (wanted != 0 && (plain_effective_flags(f, t) & wanted) != 0) o.ff = HV_NOT_GRANTED;
        }
    }
    o.combined = combined(o.mac, o.fc, o.sim, o.ff);
    if (o.combined == HV_NOT_GRANTED) o.number = HV_DENIED;
    else if (o.combined == HV_UNDEFINED) o.number = HV_UNDEFINED_ANSWER;
    else if (request == HV_CREATE) o.object = f->entered;
    return o;
}

hv_outcome plain_query(const hv_facility *f, uint8_t request, uint8_t process, uint8_t target, uint8_t extra)
{
    struct move m;
    return judge(f, request, process, target, extra, &m);
}

static inline int trusted_owner(const hv_facility *f, uint8_t p)
{
    return f->owners[p] < HV_USERS && f->trusts[f->owners[p]] == 1;
}

static void store(hv_facility *f, uint8_t p, const struct move *m)
{
    f->currents[p] = m->current.level;
    f->readmarks[p] = m->readmark.level;
    f->writemarks[p] = m->writemark.level;
    f->automatics[p] = m->automatic;
    f->moves[p] = m->moves;
    f->currentsets[p] = m->current.set;
    f->readsets[p] = m->readmark.set;
    f->writesets[p] = m->writemark.set;
}

/* The object that process p makes; t is the directory of a file or a directory. */
static void create(hv_facility *f, uint8_t p, uint8_t t, uint8_t e)
{
    uint8_t n = f->entered++;
    f->lives[n] = 1;
    f->kinds[n] = e;
    f->levels[n] = f->currents[p];
    f->sets[n] = f->currentsets[p];
    f->categories[n] = 0;
    f->datatypes[n] = 0;
    f->flags[n] = e < 2 ? HV_ADD_INHERITED : 0;
    f->parents[n] = e < 2 ? t + 1 : 0;
}

static void act(hv_facility *f, uint8_t request, uint8_t p, uint8_t t, uint8_t e, const struct move *m)
{
    uint8_t *row = f->opens + p * HV_OBJECTS;
    switch (request) {
    case HV_LOGIN:
        f->runnings[p] = 1;
        f->owners[p] = e;
        store(f, p, &(struct move){bottom, bottom, top, 1, 0});
        return;
    case HV_CLONE:
        f->runnings[t] = 1;
        f->owners[t] = f->owners[p];
        store(f, t, m);
        memcpy(f->opens + t * HV_OBJECTS, row, HV_OBJECTS);
        return;
    case HV_TERMINATE:
        f->runnings[p] = f->owners[p] = 0;
        store(f, p, &(struct move){bottom, bottom, bottom, 0, 0});
        memset(row, 0, HV_OBJECTS);
        return;
    default:
        store(f, p, m);
    }
    switch (request) {
    case HV_READ_OPEN: row[t] |= HV_OPEN_READING; return;
    case HV_WRITE_OPEN: row[t] |= HV_OPEN_WRITING; return;
    case HV_READ_WRITE_OPEN: row[t] |= HV_OPEN_READING | HV_OPEN_WRITING; return;
    case HV_CLOSE: row[t] = 0; return;
    case HV_SEND_SIGNAL:
        if (f->mac == 1 && !trusted_owner(f, t)) {
            f->readmarks[t] = f->currents[t];
            f->readsets[t] = f->currentsets[t];
        }
        return;
    case HV_DELETE:
        f->lives[t] = 0;
        for (int q = 0; q < HV_PROCESSES; q++) f->opens[q * HV_OBJECTS + t] = 0;
        return;
    case HV_CREATE: create(f, p, t, e); return;
    }
}

/* One more refusal of a user; at its stop the counter stays. */
static inline void count(hv_facility *f, uint8_t user)
{
    if (user < HV_USERS && f->refusals[user] != UINT32_MAX) f->refusals[user]++;
}

static inline hv_outcome enforce(hv_facility *f, uint8_t request, uint8_t p, uint8_t t, uint8_t e)
{
    struct move m;
    hv_outcome o = judge(f, request, p, t, e, &m);
    if (o.number == HV_ACCEPTED) act(f, request, p, t, e, &m);
    else if (o.number >= HV_DENIED) count(f, f->owners[p]);
    return o;
}

hv_outcome plain_enforce(hv_facility *f, uint8_t request, uint8_t process, uint8_t target, uint8_t extra)
{
    return enforce(f, request, process, target, extra);
}

hv_outcome plain_query_by_value(hv_facility f, uint8_t request, uint8_t process, uint8_t target, uint8_t extra)
{
    return plain_query(&f, request, process, target, extra);
}

hv_enforced plain_enforce_by_value(hv_facility f, uint8_t request, uint8_t process, uint8_t target, uint8_t extra)
{
    hv_enforced e;
    e.outcome = enforce(&f, request, process, target, extra);
    e.facility = f;
    return e;
}

static int zeros(const uint8_t *r, int from)
{
    for (int i = from; i < 8; i++)
        if (r[i] != 0) return 0;
    return 1;
}

static uint8_t record_number(const hv_facility *f, const uint8_t *r, size_t i)
{
    if (i == 0 ? r[0] != 3 : !(r[0] == 2 || (r[0] == 1 && f->entered == 0))) return HV_SETUP_PLACE;
    if ((r[0] == 1 && f->users >= HV_USERS) || (r[0] == 2 && f->entered >= HV_OBJECTS)) return HV_SETUP_FULL;
    switch (r[0]) {
    case 3: return r[1] <= 1 && r[2] <= 1 && r[3] <= 1 && r[4] <= 1 && zeros(r, 5) ? 0 : HV_SETUP_BYTE;
    case 1: return r[1] <= 15 && r[2] <= 2 && r[3] <= 1 && zeros(r, 5) ? 0 : HV_SETUP_BYTE;
    default:
        if (r[1] > 3 || (r[2] > 15 && r[2] != HV_UNSET) || (r[3] > 2 && r[3] != HV_UNSET) || r[4] > 1 || (r[5] & 0x70) != 0) return HV_SETUP_BYTE;
        if (r[2] == HV_UNSET && r[7] != 0) return HV_SETUP_BYTE;
        return r[6] == 0 || (r[6] <= f->entered && f->kinds[r[6] - 1] == HV_DIRECTORY) ? 0 : HV_SETUP_PARENT;
    }
}

static void enter(hv_facility *f, const uint8_t *r)
{
    switch (r[0]) {
    case 3:
        f->mac = r[1];
        f->fc = r[2];
        f->sim = r[3];
        f->ff = r[4];
        return;
    case 1:
        f->clearances[f->users] = r[1];
        f->roles[f->users] = r[2];
        f->trusts[f->users] = r[3];
        f->clearancesets[f->users] = r[4];
        f->users++;
        return;
    default:
        f->lives[f->entered] = 1;
        f->kinds[f->entered] = r[1];
        f->levels[f->entered] = r[2];
        f->categories[f->entered] = r[3];
        f->datatypes[f->entered] = r[4];
        f->flags[f->entered] = r[5];
        f->parents[f->entered] = r[6];
        f->sets[f->entered] = r[7];
        f->entered++;
    }
}

uint8_t plain_read_setup(hv_facility *f, const uint8_t *bytes, size_t length, uint16_t *index)
{
    memset(f, 0, sizeof *f);
    *index = 0;
    if (length == 0 || length % 8 != 0 || length > HV_SETUP_MOST) return HV_SETUP_LENGTH;
    for (size_t i = 0; i < length / 8; i++) {
        const uint8_t *r = bytes + i * 8;
        uint8_t number = record_number(f, r, i);
        if (number != 0) {
            memset(f, 0, sizeof *f);
            *index = (uint16_t)i;
            return number;
        }
        enter(f, r);
    }
    return 0;
}

size_t plain_write_setup(const hv_facility *f, uint8_t *out, size_t length)
{
    size_t live = 0, at = 8;
    uint8_t renumbered[HV_OBJECTS + 1] = {0};   /* by the old number plus 1 the new one plus 1; 0 for none and for a deleted object */
    for (int t = 0; t < f->entered; t++)
        if (f->lives[t] == 1) renumbered[t + 1] = (uint8_t)++live;
    if (length < 8 + (f->users + live) * 8) return 0;
    memcpy(out, (uint8_t[8]){3, f->mac, f->fc, f->sim, f->ff}, 8);
    for (int u = 0; u < f->users; u++, at += 8) memcpy(out + at, (uint8_t[8]){1, f->clearances[u], f->roles[u], f->trusts[u], f->clearancesets[u]}, 8);
    for (int t = 0; t < f->entered; t++)
        if (f->lives[t] == 1) {
            uint8_t parent = f->parents[t] <= HV_OBJECTS ? renumbered[f->parents[t]] : 0;
            memcpy(out + at, (uint8_t[8]){2, f->kinds[t], f->levels[t], f->categories[t], f->datatypes[t], f->flags[t], parent, f->sets[t]}, 8);
            at += 8;
        }
    return at;
}

static char *number(char *out, uint64_t n)
{
    char digits[20];
    int k = 0;
    do digits[k++] = (char)('0' + n % 10); while ((n /= 10) != 0);
    while (k > 0) *out++ = digits[--k];
    return out;
}

size_t plain_line(char *out, uint64_t index, const uint8_t call[4], const hv_facility *f, hv_outcome o)
{
    char *at = number(out, index);
    const uint8_t fields[6] = {call[0], call[1], call[2], call[3], o.number, o.combined};
    for (int k = 0; k < 6; k++) {
        *at++ = ' ';
        at = number(at, fields[k]);
    }
    *at++ = ' ';
    if (call[1] < HV_PROCESSES && f->runnings[call[1]] == 1) at = number(at, f->currents[call[1]]);
    else *at++ = '-';
    *at++ = '\n';
    return (size_t)(at - out);
}
