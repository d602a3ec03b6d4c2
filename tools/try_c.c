/* A caller of include/koo_toueg.h for tools/try-c: makes the calls of a file, in so many threads at once, and prints what the
 * program would.
 *
 * usage: try_c CALLS THREADS
 *
 * A call in the file is a line `NAME LOG CERTIFICATES FROM TO`, with the lengths of two texts, and then the two texts; of merge the
 * parts, one behind the other, and their lengths. For each
 * the program prints a line `STATUS OUT ERR` with two lengths, and then what `koo_toueg` writes to its standard output and to its
 * standard error. It ends with 1 where a call leaves a field of an earlier one, writes beyond a text or where nothing fits, or
 * answers otherwise in another thread. Each text and each buffer is a block of its own, just so long, for a tool that watches
 * memory. */
#include "koo_toueg.h"

#include <pthread.h>
#include <stdarg.h>
#include <stdio.h>
#include <stdlib.h>
#include <string.h>

typedef struct {
    char name[16];
    uint8_t *log, *certificates;
    size_t log_len, certificates_len;
    uint32_t from, to;
} call;

typedef struct {
    char *bytes;
    size_t len, room;
} text;

static call *calls;
static size_t call_count;

static void stop(const char *why) {
    fprintf(stderr, "try_c: %s\n", why);
    exit(1);
}

static void *block(size_t size) {
    void *made = malloc(size ? size : 1);
    if (!made) stop("memory");
    return made;
}

static void add(text *to, const void *bytes, size_t len) {
    if (to->len + len > to->room) {
        to->room = 2 * (to->len + len) + 64;
        to->bytes = realloc(to->bytes, to->room);
        if (!to->bytes) stop("memory");
    }
    if (len) memcpy(to->bytes + to->len, bytes, len);
    to->len += len;
}

static void say(text *to, const char *form, ...) {
    char line[200];
    va_list words;
    va_start(words, form);
    int len = vsnprintf(line, sizeof line, form, words);
    va_end(words);
    add(to, line, (size_t)len);
}

/* The line of an answer. */
static void say_answer(text *to, const kt_answer *a) {
    static const char *const why[] = {"", "BadLog", "Unknown", "Cause", "Members", "Chain", "Orphan", "Missing", "NoChain"};
    if (a->why == KT_WHY_NONE) {
        say(to, "yes\n");
        return;
    }
    if (a->why > KT_WHY_NO_CHAIN) stop("an unknown why");
    say(to, "no");
    if (a->inst) say(to, " instance %u", a->inst);
    if (a->row) say(to, " row %u", a->row);
    if (a->why == KT_WHY_NO_CHAIN) say(to, " process %u", a->process);
    say(to, " %s", why[a->why]);
    if (a->why == KT_WHY_BAD_LOG) say(to, " %u", a->rule);
    say(to, "\n");
}

/* The line of a fault. */
static void say_fault(text *to, const kt_fault *f, int is_merge) {
    static const char *const what[] = {"", "read fault", "too long", "log version", "fields", "word", "number", "place", "memory",
                                       "BadLog", "NoChain", "no such rows", "picture too long", "clock", "process", "name", "not sent",
                                       "not begun", "too many rows", "too many instances", "too many parts"};
    say(to, "koo_toueg: ");
    if (f->what == KT_WHAT_BAD_LOG) say(to, "no row %u BadLog %u\n", f->place, f->rule);
    else if (f->what == KT_WHAT_NO_CHAIN) say(to, "no instance %u row %u process %u NoChain\n", f->inst, f->place, f->process);
    else if (f->what == KT_WHAT_NO_ROWS) say(to, "no such rows\n");
    else if (f->what == KT_WHAT_PICTURE) say(to, "picture too long\n");
    else if (f->what == KT_WHAT_TOO_LONG) say(to, "%s too long\n", f->text == 1 ? "log" : "certificate");
    else if (is_merge) say(to, f->place ? "part %u record %u: %s\n" : "part %u%.0u %s\n", f->text - 1, f->place, what[f->what]);
    else if (!f->place) say(to, "%s\n", what[f->what]);
    else say(to, "%s %u: %s\n", f->text == 1 ? "log row" : "certificate record", f->place, what[f->what]);
}

static int is_blank(const void *bytes, size_t len) {
    for (size_t i = 0; i < len; i++)
        if (((const uint8_t *)bytes)[i]) return 0;
    return 1;
}

/* A call that answers. */
static uint32_t answer(const call *c, text *out, text *err) {
    kt_answer *found = block(sizeof *found);
    kt_fault *fault = block(sizeof *fault);
    memset(found, 0xff, sizeof *found);
    memset(fault, 0xff, sizeof *fault);
    uint32_t status = !strcmp(c->name, "check") ? kt_check(c->log, c->log_len, c->certificates, c->certificates_len, found, fault)
                                               : kt_judge(c->log, c->log_len, found, fault);
    if (status > KT_NO ? !is_blank(found, sizeof *found) : !is_blank(fault, sizeof *fault)) stop("a field of an earlier call");
    if (status == KT_YES && !is_blank(found, sizeof *found)) stop("a yes that names something");
    if (status > KT_NO) say_fault(err, fault, 0);
    else say_answer(out, found);
    free(found);
    free(fault);
    return status;
}

/* Merges the parts of a call, each in a block of its own. */
static uint32_t merge(const call *c, uint8_t *out, size_t size, size_t *len, kt_fault *fault) {
    kt_text parts[65];
    size_t count = 0, at = 0, place = 0;
    char *lengths = block(c->certificates_len + 1);
    memcpy(lengths, c->certificates, c->certificates_len);
    lengths[c->certificates_len] = 0;
    for (int read; count < 65 && sscanf(lengths + place, "%zu%n", &parts[count].len, &read) == 1; place += (size_t)read, count++) {
        uint8_t *part = block(parts[count].len);
        memcpy(part, c->log + at, parts[count].len);
        parts[count].bytes = part;
        at += parts[count].len;
    }
    uint32_t status = kt_merge(parts, count, out, size, len, fault);
    while (count) free((void *)parts[--count].bytes);
    free(lengths);
    return status;
}

static uint32_t make(const call *c, uint8_t *out, size_t size, size_t *len, kt_fault *fault) {
    if (!strcmp(c->name, "merge")) return merge(c, out, size, len, fault);
    if (!strcmp(c->name, "certify")) return kt_certify(c->log, c->log_len, out, size, len, fault);
    if (!strcmp(c->name, "explain"))
        return kt_explain(c->log, c->log_len, c->certificates, c->certificates_len, out, size, len, fault);
    if (!strcmp(c->name, "draw"))
        return kt_draw(c->log, c->log_len, c->certificates, c->certificates_len, c->from, c->to, out, size, len, fault);
    stop("an unknown call");
    return 0;
}

/* A call that makes a text: into no room, into a byte too few, and into just enough. */
static uint32_t make_text(const call *c, text *out, text *err) {
    size_t *len = block(sizeof *len);
    kt_fault *fault = block(sizeof *fault);
    uint8_t *none = block(0);
    memset(fault, 0xff, sizeof *fault);
    uint32_t status = make(c, none, 0, len, fault);
    free(none);
    if (status != KT_SHORT) {
        if (*len) stop("the length of no text");
        if (status != KT_YES) say_fault(err, fault, !strcmp(c->name, "merge"));
        else if (!is_blank(fault, sizeof *fault)) stop("a fault beside an empty text");
    } else {
        size_t needed = *len;
        if (!needed) stop("an empty text that does not fit");
        for (size_t size = needed - 1; size <= needed; size++) {
            uint8_t *room = block(size);
            memset(room, 0xa5, size);
            memset(fault, 0xff, sizeof *fault);
            status = make(c, room, size, len, fault);
            if (*len != needed || !is_blank(fault, sizeof *fault)) stop("another length, or a field of an earlier call");
            if ((status == KT_SHORT) != (size < needed)) stop("a text that fits, or does not");
            for (size_t i = 0; size < needed && i < size; i++)
                if (room[i] != 0xa5) stop("a buffer that is too short was changed");
            if (size == needed) add(out, room, needed);
            free(room);
        }
        uint8_t *long_room = block(needed + 99);
        memset(long_room, 0xa5, needed + 99);
        if (make(c, long_room, needed + 99, len, fault) != status || memcmp(long_room, out->bytes, needed)) stop("another text");
        for (size_t i = needed; i < needed + 99; i++)
            if (long_room[i] != 0xa5) stop("a buffer was changed behind its text");
        free(long_room);
    }
    free(len);
    free(fault);
    return status;
}

/* All calls, one after another. */
static void *run(void *told) {
    for (size_t i = 0; i < call_count; i++) {
        text out = {0}, err = {0};
        int answers = !strcmp(calls[i].name, "check") || !strcmp(calls[i].name, "judge");
        uint32_t status = answers ? answer(&calls[i], &out, &err) : make_text(&calls[i], &out, &err);
        say(told, "%u %zu %zu\n", status, out.len, err.len);
        add(told, out.bytes, out.len);
        add(told, err.bytes, err.len);
        free(out.bytes);
        free(err.bytes);
    }
    return told;
}

static uint8_t *read_text(FILE *file, size_t len) {
    uint8_t *made = block(len);
    if (fread(made, 1, len, file) != len) stop("the file ends too early");
    return made;
}

static void read_calls(const char *name) {
    FILE *file = fopen(name, "rb");
    if (!file) stop("no such file");
    call c;
    while (fscanf(file, "%15s %zu %zu %u %u", c.name, &c.log_len, &c.certificates_len, &c.from, &c.to) == 5) {
        fgetc(file);
        c.log = read_text(file, c.log_len);
        c.certificates = read_text(file, c.certificates_len);
        if (!(call_count & (call_count + 1))) calls = realloc(calls, (2 * call_count + 1) * sizeof *calls);
        if (!calls) stop("memory");
        calls[call_count++] = c;
    }
    fclose(file);
}

static void tell_layout(void) {
    const size_t known[8] = {sizeof(kt_answer), sizeof(kt_fault), sizeof(size_t), sizeof(kt_parcel),
                             sizeof(kt_input), sizeof(kt_row), sizeof(kt_act), sizeof(kt_output)};
    uint32_t sizes[8];
    if (kt_version() != KT_VERSION || kt_sizes(sizes, 8) != 8) stop("another version");
    for (size_t i = 0; i < 8; i++)
        if (sizes[i] != known[i]) stop("other sizes");
}

int main(int count, char **words) {
    if (count != 3) stop("usage: try_c CALLS THREADS");
    tell_layout();
    read_calls(words[1]);
    size_t threads = strtoul(words[2], NULL, 10);
    text *told = calloc(threads, sizeof *told);
    pthread_t *ids = calloc(threads, sizeof *ids);
    if (!threads || !told || !ids) stop("no threads");
    for (size_t i = 0; i < threads; i++)
        if (pthread_create(&ids[i], NULL, run, &told[i])) stop("no thread");
    for (size_t i = 0; i < threads; i++) pthread_join(ids[i], NULL);
    for (size_t i = 1; i < threads; i++)
        if (told[i].len != told[0].len || memcmp(told[i].bytes, told[0].bytes, told[0].len)) stop("threads differ");
    fwrite(told[0].bytes, 1, told[0].len, stdout);
    for (size_t i = 0; i < threads; i++) free(told[i].bytes);
    for (size_t i = 0; i < call_count; i++) {
        free(calls[i].log);
        free(calls[i].certificates);
    }
    free(told);
    free(ids);
    free(calls);
    return 0;
}
