/* Tries the library of include/rumqatiss.h on tables of vectors, on traces and at its limits: every result, and every byte of every buffer.

       test BOARD.tsv LOAD.tsv REPLAY.tsv DEPOT.tsv TRACES LOG..

   A table has a head line that names its columns, and a row a vector, its columns parted by tabs; bytes are in hex, "-" for none.
   TRACES is what crates/trace prints of the logs, one after another: a line for each record, and the image at the end.
   Each buffer and each result stands between marked bytes, which must be as they were after the call, as must what is only read. */
#include <stdarg.h>
#include <stdio.h>
#include <stdlib.h>
#include <string.h>
#include "rumqatiss.h"

enum { EDGE = 64, LARGEST = 66000, ROOM = RUMQATISS_LONGEST_IMAGE + 16, TEXT_ROOM = RUMQATISS_LONGEST_REPORT + 16, MARK = 0xA6 };

enum {
    PLACES = 64,      /* how many threads can live */
    OLD_PLACES = 32,  /* how many could in images of the older editions, and still can */
    EDITION = 4       /* of the images that are written */
};

/* ---- what is lent to a call */

/* Bytes between two edges, and what they must be after the call. */
struct lent {
    const char *name;
    int is_number;
    size_t len;
    uint8_t want[LARGEST];
    _Alignas(8) uint8_t area[EDGE + LARGEST + EDGE];
};

static struct lent image = { .name = "image" }, record = { .name = "record" }, events = { .name = "log" }, out = { .name = "out" };
static struct lent choice = { .name = "choice" }, next = { .name = "next" }, number = { .name = "number" }, length = { .name = "length" };
static struct lent records = { .name = "records" }, bytes = { .name = "bytes" }, offset = { .name = "offset" };

static struct lent *used[16];  /* what the coming call is lent */
static int uses;
static int nulls;              /* whether an empty buffer is lent as a null pointer */
static const char *table;      /* where the vector stands, for messages */
static int line;

/* An edge's bytes differ from their neighbours', so that a shifted copy shows too. */
static uint8_t edge(size_t i) { return (uint8_t)(i * 37 + 11); }

static uint8_t *lend(struct lent *b, size_t len) {
    for (size_t i = 0; i < EDGE; i++) b->area[i] = b->area[EDGE + len + i] = edge(i);
    b->len = len;
    used[uses++] = b;
    return nulls && len == 0 ? NULL : b->area + EDGE;
}

/* Bytes that the call only reads. */
static const uint8_t *lend_bytes(struct lent *b, const uint8_t *from, size_t len) {
    uint8_t *at = lend(b, len);
    if (len != 0) memcpy(at, from, len);
    memcpy(b->want, b->area + EDGE, len);
    return at;
}

/* The output buffer, filled; after the call the image, or the text, is to stand at its head. */
static uint8_t *lend_out(size_t room, uint8_t fill, const uint8_t *after, size_t n) {
    uint8_t *at = lend(&out, room);
    memset(out.area + EDGE, fill, room);
    memset(out.want, fill, room);
    if (n != 0) memcpy(out.want, after, n);
    return at;
}

/* A result of that width. Before the call it differs in every bit from what it must become, so that each call must write it. */
static void *lend_number(struct lent *b, size_t width, uint32_t want) {
    uint8_t *at = lend(b, width);
    b->is_number = 1;
    for (size_t i = 0; i < width; i++) {
        b->want[i] = (uint8_t)(want >> 8 * i);
        at[i] = (uint8_t)~b->want[i];
    }
    return at;
}

/* ---- after a call */

static void show(const char *what, const uint8_t *b, const struct lent *l) {
    printf("  %s %s: ", l->name, what);
    uint32_t n = 0;
    if (l->is_number) {
        for (size_t i = l->len; i > 0; i--) n = n << 8 | b[i - 1];
        printf("%u", n);
    } else {
        for (size_t i = 0; i < l->len; i++) printf("%02x", b[i]);
    }
    printf("\n");
}

static int edges_stand(const struct lent *l) {
    for (size_t i = 0; i < EDGE; i++) {
        if (l->area[i] != edge(i) || l->area[EDGE + l->len + i] != edge(i)) return 0;
    }
    return 1;
}

/* Compares all that the call was lent with what it must be. The first disagreement is said in full, and ends the test. */
static void settle(const char *name, uint8_t code, uint8_t want) {
    int agree = code == want;
    for (int i = 0; i < uses; i++) {
        agree = agree && edges_stand(used[i]) && memcmp(used[i]->area + EDGE, used[i]->want, used[i]->len) == 0;
    }
    if (!agree) {
        printf("%s, line %d: %s disagrees\n  code is: %d\n  code should be: %d\n", table, line, name, code, want);
        for (int i = 0; i < uses; i++) {
            const struct lent *l = used[i];
            show("is", l->area + EDGE, l);
            if (memcmp(l->area + EDGE, l->want, l->len) != 0) show("should be", l->want, l);
            if (!edges_stand(l)) printf("  %s: a byte before or behind it was changed\n", l->name);
        }
        exit(1);
    }
    uses = 0;
}

/* ---- the stack */

/* Every call that is tried runs on this stack, which is painted before the first. What is not painted after the last was used. */
static _Alignas(16) uint8_t stack[64 * 1024];

static void paint(void) {
    for (size_t i = 0; i < sizeof stack; i++) stack[i] = edge(i);
}

/* The most bytes of stack that a call has used, with those of the few lines that hand its arguments over. */
static size_t stack_used(void) {
    size_t i = 0;
    while (i < sizeof stack && stack[i] == edge(i)) i++;
    return sizeof stack - i;
}

/* The old stack's pointer waits in rbx, which a function gives back as it was. The address of the function and that of the new
   stack must survive until they are used, so they may stand in none of the registers that are listed as changed. */
static void on_painted_stack(void function(void)) {
    __asm__ volatile("movq %%rsp, %%rbx\n\tmovq %0, %%rsp\n\tcallq *%1\n\tmovq %%rbx, %%rsp"
                     :
                     : "r"(stack + sizeof stack), "r"(function)
                     : "rax", "rbx", "rcx", "rdx", "rsi", "rdi", "r8", "r9", "r10", "r11", "xmm0", "xmm1", "xmm2", "xmm3", "xmm4", "xmm5",
                       "xmm6", "xmm7", "xmm8", "xmm9", "xmm10", "xmm11", "xmm12", "xmm13", "xmm14", "xmm15", "cc", "memory");
}

/* The coming call's arguments, as many as it has, and its code. */
static struct {
    const uint8_t *image, *record, *log;
    size_t image_len, record_len, log_len, room;
    uint8_t *out, *choice, *next, *number, who, code;
    uint32_t *records, *bytes;
    uint16_t *offset, *length;
} call;

static void call_board(void) {
    call.code = rumqatiss_board(call.image, call.image_len, call.record, call.record_len, call.out, call.room,
                                call.choice, call.next, call.number, call.length);
}

static void call_fresh(void) { call.code = rumqatiss_fresh(call.out, call.room, call.length); }

static void call_replay(void) {
    call.code = rumqatiss_replay(call.image, call.image_len, call.log, call.log_len, call.out, call.room,
                                 call.choice, call.next, call.records, call.bytes, call.length);
}

static void call_update(void) {
    call.code = rumqatiss_update(call.image, call.image_len, call.out, call.room, call.choice, call.next, call.length);
}

static void call_report(void) {
    call.code = rumqatiss_report(call.image, call.image_len, call.log, call.log_len, call.out, call.room, call.length);
}

static void call_look_up(void) { call.code = rumqatiss_look_up(call.image, call.image_len, call.who, call.offset, call.length); }

/* ---- the calls, each with what it must come to */

struct part { const uint8_t *at; size_t len; };
struct chosen { uint8_t kind, runs; };

static const struct part none = { NULL, 0 };
static const struct chosen halt = { RUMQATISS_HALT, RUMQATISS_NOBODY };

static void lend_image(struct part im) {
    call.image = lend_bytes(&image, im.at, im.len);
    call.image_len = im.len;
}

static void lend_room(size_t room, uint8_t fill, struct part after) {
    call.out = lend_out(room, fill, after.at, after.len);
    call.room = room;
    call.length = lend_number(&length, 2, (uint32_t)after.len);
}

static void lend_choice(struct chosen c) {
    call.choice = lend_number(&choice, 1, c.kind);
    call.next = lend_number(&next, 1, c.runs);
}

static void try_board(struct part im, struct part rec, size_t room, uint8_t fill, uint8_t code, struct chosen c, uint8_t given, struct part after) {
    lend_image(im);
    call.record = lend_bytes(&record, rec.at, rec.len);
    call.record_len = rec.len;
    lend_room(room, fill, after);
    lend_choice(c);
    call.number = lend_number(&number, 1, given);
    on_painted_stack(call_board);
    settle("rumqatiss_board", call.code, code);
}

static void lend_log(struct part log) {
    call.log = lend_bytes(&events, log.at, log.len);
    call.log_len = log.len;
}

static void try_replay(struct part im, struct part log, size_t room, uint8_t code, struct chosen c, uint32_t count, uint32_t read, struct part after) {
    lend_image(im);
    lend_log(log);
    lend_room(room, MARK, after);
    lend_choice(c);
    call.records = lend_number(&records, 4, count);
    call.bytes = lend_number(&bytes, 4, read);
    on_painted_stack(call_replay);
    settle("rumqatiss_replay", call.code, code);
}

static void try_look_up(struct part im, uint8_t who, uint8_t code, uint16_t start, uint16_t len) {
    lend_image(im);
    call.who = who;
    call.offset = lend_number(&offset, 2, start);
    call.length = lend_number(&length, 2, len);
    char name[40];
    snprintf(name, sizeof name, "rumqatiss_look_up of number %d", who);
    on_painted_stack(call_look_up);
    settle(name, call.code, code);
}

static void try_update(struct part im, size_t room, uint8_t code, struct chosen c, struct part after) {
    lend_image(im);
    lend_room(room, MARK, after);
    lend_choice(c);
    on_painted_stack(call_update);
    settle("rumqatiss_update", call.code, code);
}

static void try_report(struct part im, struct part log, size_t room, uint8_t fill, uint8_t code, struct part text) {
    lend_image(im);
    lend_log(log);
    lend_room(room, fill, text);
    on_painted_stack(call_report);
    settle("rumqatiss_report", call.code, code);
}

static void try_fresh(size_t room, uint8_t code, struct part after) {
    lend_room(room, MARK, after);
    on_painted_stack(call_fresh);
    settle("rumqatiss_fresh", call.code, code);
}

/* Where the contents begin and end in an image that load takes. Before them is its edition's head. */
static size_t contents_of(struct part im) { return im.at[0] == 1 ? 8 : 56; }
static size_t contents_end(struct part im) { return contents_of(im) + 4 * (size_t)im.at[3]; }

/* How long a body is without its inbox: the parent came with edition 3. */
static size_t body_length(struct part im) { return im.at[0] < 3 ? 13 : 14; }

/* Where the body of the thread begins that is this one in the contents. */
static size_t body_at(struct part im, size_t nth) {
    const uint8_t *entry = im.at + contents_of(im) + 4 * nth;
    return entry[2] | (size_t)entry[3] << 8;
}

/* Whether somebody waits for the clock or, from edition 2 on, at a device: the head counts them up to the length at its end. */
static int somebody_waits(struct part im) {
    for (size_t i = 5; i < contents_of(im) - 2; i++) {
        if (im.at[i] != 0) return 1;
    }
    return 0;
}

/* The choice of an image that load takes, as its bytes say it. */
static struct chosen choice_of(struct part im) {
    for (size_t i = contents_of(im); i < contents_end(im); i += 4) {
        if (im.at[i] == im.at[2]) return (struct chosen){ RUMQATISS_RUN, im.at[i + 1] };
    }
    if (im.at[3] == 0) return halt;
    return (struct chosen){ somebody_waits(im) ? RUMQATISS_WAIT : RUMQATISS_STUCK, RUMQATISS_NOBODY };
}

/* ---- the report, as an image's bytes say it */

static char words[TEXT_ROOM];
static struct part said = { (uint8_t *)words, 0 };  /* what has been said of the coming text */

static void say(const char *format, ...) {
    va_list all;
    va_start(all, format);
    said.len += (size_t)vsnprintf(words + said.len, sizeof words - said.len, format, all);
    va_end(all);
    if (said.len >= sizeof words) {
        printf("%s, line %d: the text is longer than it may be\n", table, line);
        exit(1);
    }
}

/* The line of the thread that is this one in the contents. */
static void say_thread(struct part im, size_t nth) {
    static const char *const standings[] = { "", "running", "ready", "sending to", "awaiting", "receiving from", "clock", "device" };
    const uint8_t *entry = im.at + contents_of(im) + 4 * nth, *body = im.at + body_at(im, nth);
    int is_any = body[0] == 5 && body[1] == RUMQATISS_NOBODY;
    say("%d place %d %s", entry[1], entry[0], is_any ? "receiving any" : standings[body[0]]);
    if (body[1] != RUMQATISS_NOBODY) say(" %d", body[1]);
    say("\n");
}

static void say_choice(struct chosen c) {
    static const char *const choices[] = { "run", "halt", "wait", "stuck" };
    say("next %s", choices[c.kind]);
    if (c.kind == RUMQATISS_RUN) say(" %d", c.runs);
    say("\n");
}

/* All lines but the last, of an image that load takes. What comes of a log is such an image too. */
static void say_state(struct part im) {
    said.len = 0;
    say("threads %d ready %d clock %d\n", im.at[3], im.at[4], im.at[5]);
    for (size_t i = 0; i < im.at[3]; i++) say_thread(im, i);
    say_choice(choice_of(im));
}

static void say_log(uint32_t count, uint32_t read, uint8_t code) {
    say("log %u records %u bytes %s\n", count, read, code == RUMQATISS_CUT_SHORT ? "torn" : code == RUMQATISS_UNKNOWN_KIND ? "unknown" : "whole");
}

/* What has been said is the report: in a buffer that is longer, in one that just fits, and in one that is a byte too short. */
static void try_said(struct part im, struct part log) {
    try_report(im, log, TEXT_ROOM, MARK, RUMQATISS_DONE, said);
    try_report(im, log, said.len, MARK, RUMQATISS_DONE, said);
    try_report(im, log, said.len - 1, MARK, RUMQATISS_SHORT_BUFFER, none);
}

static void try_image_refused(struct part im, struct part log, uint8_t code) {
    said.len = 0;
    say("image refused %d\n", code);
    try_said(im, log);
}

/* A log of that many bytes is too long, and nothing of it happens. */
static void try_log_refused(struct part im, struct part log) {
    say_state(im);
    say("log refused %d\n", RUMQATISS_LONG_LOG);
    try_said(im, log);
}

static void try_told(struct part im, struct part log, uint8_t code, uint32_t count, uint32_t read, struct part after) {
    say_state(after);
    say_log(count, read, code);
    try_said(im, log);
}

/* ---- the tables */

static void broken(const char *what) {
    printf("%s, line %d: %s\n", table, line, what);
    exit(1);
}

static uint32_t number_in(const char *text) {
    unsigned n;
    if (sscanf(text, "%u", &n) != 1) broken("a number was expected");
    return n;
}

/* Hex to bytes, over the text itself. */
static struct part bytes_in(char *text) {
    struct part p = { (uint8_t *)text, 0 };
    if (strcmp(text, "-") == 0) return none;
    for (uint8_t b; text[2 * p.len] != 0; p.len++) {
        if (text[2 * p.len + 1] == 0 || sscanf(text + 2 * p.len, "%2hhx", &b) != 1) broken("bytes in hex were expected");
        ((uint8_t *)text)[p.len] = b;
    }
    return p;
}

/* "run N", "halt", "wait" or "stuck" */
static struct chosen choice_in(const char *text) {
    unsigned n;
    if (sscanf(text, "run %u", &n) == 1) return (struct chosen){ RUMQATISS_RUN, (uint8_t)n };
    if (strcmp(text, "halt") == 0) return halt;
    if (strcmp(text, "wait") == 0) return (struct chosen){ RUMQATISS_WAIT, RUMQATISS_NOBODY };
    if (strcmp(text, "stuck") == 0) return (struct chosen){ RUMQATISS_STUCK, RUMQATISS_NOBODY };
    broken("a choice was expected");
    return halt;
}

/* image record room fill > code choice number length out */
static void board_row(char **f) {
    struct part im = bytes_in(f[0]), rec = bytes_in(f[1]), after = bytes_in(f[8]);
    uint8_t fill = (uint8_t)number_in(f[3]), code = (uint8_t)number_in(f[4]);
    if (after.len != number_in(f[7])) broken("the image's length was expected");
    try_board(im, rec, number_in(f[2]), fill, code, choice_in(f[5]), (uint8_t)number_in(f[6]), after);
    if (code != RUMQATISS_DONE) return;
    try_board(im, rec, after.len, fill, code, choice_in(f[5]), (uint8_t)number_in(f[6]), after);
    try_board(im, rec, after.len - 1, fill, RUMQATISS_SHORT_BUFFER, choice_of(im), RUMQATISS_NOBODY, none);
}

/* An update that is done: in a buffer that is longer, in one that just fits, and in one that is a byte too short. What comes of it is
   an image that load takes, and a second update has nothing to do. */
static void try_updated(struct part im, struct part after) {
    struct chosen c = choice_of(after);
    try_told(after, none, RUMQATISS_DONE, 0, 0, after);
    try_update(im, ROOM, RUMQATISS_DONE, c, after);
    try_update(im, after.len, RUMQATISS_DONE, c, after);
    try_update(im, after.len - 1, RUMQATISS_SHORT_BUFFER, c, none);
    try_update(after, after.len, RUMQATISS_DONE, c, after);
    try_replay(after, none, after.len, RUMQATISS_DONE, c, 0, 0, after);
}

/* image > code resaved choice lookups updatecode updated; a look-up is number:offset:length, 0:0 where there is none. Where load or
   update refuses the image, the table has the fresh image for what is saved then. */
static void load_row(char **f) {
    struct part im = bytes_in(f[0]);
    uint8_t code = (uint8_t)number_in(f[1]), absent = code == RUMQATISS_DONE ? RUMQATISS_NOT_LIVE : code;
    uint8_t update = (uint8_t)number_in(f[5]);
    try_replay(im, none, ROOM, code, choice_in(f[3]), 0, 0, code == RUMQATISS_DONE ? bytes_in(f[2]) : none);
    unsigned who, start, len;
    int seen = 0;
    for (char *p = f[4]; sscanf(p, "%u:%u:%u%n", &who, &start, &len, &seen) == 3; p += *p == ',') {
        try_look_up(im, (uint8_t)who, len == 0 ? absent : RUMQATISS_DONE, (uint16_t)start, (uint16_t)len);
        p += seen;
    }
    if (seen == 0) broken("look-ups were expected");
    if (update == RUMQATISS_DONE) try_updated(im, bytes_in(f[6]));
    else try_update(im, ROOM, update, halt, none);
    if (code != RUMQATISS_DONE) {
        try_image_refused(im, none, code);
        return;
    }
    try_told(im, none, code, 0, 0, im);
    /* every thread that the image's contents name */
    for (size_t i = 0; i < im.at[3]; i++) {
        size_t body = body_at(im, i);
        try_look_up(im, im.at[contents_of(im) + 4 * i + 1], RUMQATISS_DONE, (uint16_t)body, (uint16_t)(body_length(im) + im.at[body + 12]));
    }
}

/* image log > code records bytes choice final. Where the log is too long, the table has the image given for what is saved then. */
static void replay_row(char **f) {
    struct part im = bytes_in(f[0]), log = bytes_in(f[1]), after = bytes_in(f[6]);
    uint8_t code = (uint8_t)number_in(f[2]);
    struct chosen c = choice_in(f[5]);
    if (code == RUMQATISS_LONG_LOG) after = none;
    try_replay(im, log, ROOM, code, c, number_in(f[3]), number_in(f[4]), after);
    try_replay(im, log, after.len, code, c, number_in(f[3]), number_in(f[4]), after);
    if (after.len == 0) return;
    try_replay(im, log, after.len - 1, RUMQATISS_SHORT_BUFFER, choice_of(im), 0, 0, none);
    try_told(im, log, code, number_in(f[3]), number_in(f[4]), after);
}

/* image log room fill > code length text. Where the text does not fit, the table has none. */
static void depot_row(char **f) {
    struct part im = bytes_in(f[0]), log = bytes_in(f[1]), text = bytes_in(f[6]);
    uint8_t fill = (uint8_t)number_in(f[3]), code = (uint8_t)number_in(f[4]);
    if (text.len != number_in(f[5])) broken("the text's length was expected");
    try_report(im, log, number_in(f[2]), fill, code, text);
    if (code != RUMQATISS_DONE) return;
    try_report(im, log, text.len, fill, code, text);
    try_report(im, log, text.len - 1, fill, RUMQATISS_SHORT_BUFFER, none);
}

static FILE *open_table(const char *path) {
    FILE *in = fopen(path, "r");
    table = path;
    line = 0;
    if (in == NULL) broken("the file cannot be opened");
    return in;
}

/* The next line without its end, or NULL where there is none. It stands until the next is read. */
static char *next_line(FILE *in) {
    static char text[2 * RUMQATISS_LONGEST_LOG + 8192];  /* a log in hex, and the images beside it */
    line++;
    if (fgets(text, sizeof text, in) == NULL) return NULL;
    char *end = strchr(text, '\n');
    if (end == NULL) broken("the line is too long, or has no end");
    *end = 0;
    return text;
}

static void try_table(const char *name, const char *path, int columns, void row(char **)) {
    char *f[16], *text;
    int vectors = 0;
    FILE *in = open_table(path);
    while ((text = next_line(in)) != NULL) {
        if (text[0] == '#') continue;
        int n = 0;
        for (char *p = text; p != NULL && n < columns; n++) {
            f[n] = p;
            p = strchr(p, '\t');
            if (p != NULL) *p++ = 0;
        }
        if (n != columns) broken("a column is missing");
        row(f);
        vectors++;
    }
    if (ferror(in) || vectors == 0) broken("there are no vectors");
    fclose(in);
    printf("%s: %d vectors agree\n", name, vectors);
}

/* ---- the traces */

static const uint8_t fresh_bytes[56] = { EDITION, 253, 255, [54] = 56 };
static const struct part fresh = { fresh_bytes, sizeof fresh_bytes };
static const uint8_t lengths[10] = RUMQATISS_RECORD_LENGTHS;

static struct part log_in(const char *path) {
    static uint8_t b[RUMQATISS_LONGEST_LOG + 1];
    FILE *in = fopen(path, "r");
    if (in == NULL) broken("its log cannot be opened");
    struct part log = { b, fread(b, 1, sizeof b, in) };
    if (ferror(in) || log.len == 0 || log.len == sizeof b) broken("its log cannot be read, is empty or is too long");
    fclose(in);
    return log;
}

/* The record that a log begins with. */
static struct part record_in(struct part log) {
    struct part rec = { log.at, 0 };
    if (log.at[0] >= 1 && log.at[0] <= sizeof lengths) rec.len = lengths[log.at[0] - 1];
    if (rec.len == 0 || rec.len > log.len) broken("a whole record was expected in the log");
    return rec;
}

/* The image that a record leaves, or several, into b. The traces have the last image only. Those before it are what rumqatiss_replay makes of
   the record, and rumqatiss_board must come to the same. */
static struct part image_after(struct part im, struct part rec, uint8_t b[RUMQATISS_LONGEST_IMAGE]) {
    uint8_t kind, runs;
    uint32_t count, read;
    uint16_t len;
    uint8_t code = rumqatiss_replay(im.at, im.len, rec.at, rec.len, b, RUMQATISS_LONGEST_IMAGE, &kind, &runs, &count, &read, &len);
    if (code != RUMQATISS_DONE) broken("the record cannot be replayed");
    return (struct part){ b, len };
}

/* The next line of the text, where one must be. */
static char *expect_line(FILE *traces) {
    char *text = next_line(traces);
    if (text == NULL) broken("another line was expected");
    return text;
}

/* A record, and the line CODE CHOICE NUMBER of what it comes to. Returns the choice. */
static struct chosen try_answer(struct part im, struct part rec, struct part after, char *text) {
    char *said = strchr(text, ' '), *given = strrchr(text, ' ');
    if (said == given) broken("a code, a choice and a number were expected");
    *said = *given = 0;
    uint8_t code = (uint8_t)number_in(text);
    struct chosen c = choice_in(said + 1);
    try_board(im, rec, ROOM, MARK, code, c, (uint8_t)number_in(given + 1), code == RUMQATISS_DONE ? after : none);
    return c;
}

/* The log's records happen one by one, from the fresh image. What they come to stands in the next lines of the text, and behind them the
   image at the end, which the whole log must come to as well. How many records that is. */
static uint32_t try_trace(FILE *traces, const char *path) {
    static uint8_t b[2][RUMQATISS_LONGEST_IMAGE];
    struct part log = log_in(path), rest = log, im = fresh;
    struct chosen c = halt;
    uint32_t count = 0;
    for (; rest.len != 0; count++) {
        struct part rec = record_in(rest), after = image_after(im, rec, b[count % 2]);
        c = try_answer(im, rec, after, expect_line(traces));
        im = after;
        rest = (struct part){ rest.at + rec.len, rest.len - rec.len };
    }
    char *text = expect_line(traces);
    if (memcmp(text, "image ", 6) != 0) broken("the image at the end was expected");
    struct part last = bytes_in(text + 6);
    if (last.len != im.len || memcmp(last.at, im.at, im.len) != 0) broken("the records one by one come to another image");
    try_replay(fresh, log, ROOM, RUMQATISS_DONE, c, count, (uint32_t)log.len, last);
    return count;
}

static void try_traces(const char *path, char **logs, int n) {
    FILE *traces = open_table(path);
    uint32_t count = 0;
    for (int i = 0; i < n; i++) count += try_trace(traces, logs[i]);
    if (next_line(traces) != NULL) broken("nothing more was expected");
    fclose(traces);
    printf("traces: %u records of %d logs agree\n", count, n);
}

/* ---- what no table has */

static const uint8_t first_bytes[74] = { EDITION, 0, 0, 1, [54] = 74, [58] = 60, [60] = 1, 255, [67] = 255, [73] = 255 };
static const struct part first = { first_bytes, sizeof first_bytes };
static const struct chosen run_0 = { RUMQATISS_RUN, 0 }, wait = { RUMQATISS_WAIT, RUMQATISS_NOBODY };

static void try_rooms(void) {
    table = "fresh";
    for (size_t room = 0; room <= RUMQATISS_FRESH_IMAGE + 8; room++) {
        line = (int)room;
        if (room < RUMQATISS_FRESH_IMAGE) try_fresh(room, RUMQATISS_SHORT_BUFFER, none);
        else try_fresh(room, RUMQATISS_DONE, fresh);
    }
    printf("fresh: buffers of 0 to %d bytes agree\n", RUMQATISS_FRESH_IMAGE + 8);
}

/* A record of every kind in every length: only the length of RUMQATISS_RECORD_LENGTHS is one record. */
static void try_lengths(void) {
    static const uint8_t codes[10] = { 0, 1, 1, 1, 4, 1, 0, 0, 1, 0 };  /* what the event comes to where no thread lives */
    for (line = 0; line <= 255; line++) {
        for (size_t n = 1; n <= RUMQATISS_LONGEST_RECORD + 1; n++) {
            uint8_t b[RUMQATISS_LONGEST_RECORD + 1] = { (uint8_t)line };
            struct part rec = { b, n };
            if (line < 1 || line > 10) try_board(fresh, rec, ROOM, MARK, RUMQATISS_UNKNOWN_KIND, halt, RUMQATISS_NOBODY, none);
            else if (n != lengths[line - 1]) try_board(fresh, rec, ROOM, MARK, RUMQATISS_CUT_SHORT, halt, RUMQATISS_NOBODY, none);
            else if (line == RUMQATISS_CREATE) try_board(fresh, rec, ROOM, MARK, RUMQATISS_DONE, run_0, 0, first);
            else try_board(fresh, rec, ROOM, MARK, codes[line - 1], halt, RUMQATISS_NOBODY, codes[line - 1] == 0 ? fresh : none);
        }
    }
}

/* Records that the rules refuse after a log from fresh: a send, a receive or a reply that names the running thread, a reply to a
   thread in each of the standings in which it does not await the reply of the one that runs, a wait where there is no device, and a
   receive from nobody who lives. */
static void try_refusals(void) {
    static struct { char log[40], record[16]; uint8_t runs, code; } rows[] = {
        { "01", "020007000000", 0, RUMQATISS_NAMES_CALLER },
        { "01", "0300", 0, RUMQATISS_NAMES_CALLER },
        { "01", "040007000000", 0, RUMQATISS_NAMES_CALLER },
        { "010107", "020107000000", 1, RUMQATISS_NAMES_CALLER },
        { "010107", "0301", 1, RUMQATISS_NAMES_CALLER },
        { "010107", "040107000000", 1, RUMQATISS_NAMES_CALLER },
        { "0101", "040107000000", 0, RUMQATISS_NOT_AWAITING },                      /* it is ready */
        { "0101020109000000", "040007000000", 1, RUMQATISS_NOT_AWAITING },          /* it sends, and was not received */
        { "01010102010900000003ff07", "040007000000", 2, RUMQATISS_NOT_AWAITING },  /* it awaits the reply of another */
        { "010103ff", "040007000000", 1, RUMQATISS_NOT_AWAITING },                  /* it receives from anyone */
        { "01010301", "040007000000", 1, RUMQATISS_NOT_AWAITING },                  /* it receives from the one that runs */
        { "010106", "040007000000", 1, RUMQATISS_NOT_AWAITING },                    /* it waits for the clock */
        { "01010901", "040007000000", 1, RUMQATISS_NOT_AWAITING },                  /* it waits at a device, whose index runs as a number */
        { "01", "0930", 0, RUMQATISS_BAD_NUMBER },                                  /* the first index of no device */
        { "01", "09ff", 0, RUMQATISS_BAD_NUMBER },
        { "01", "0301", 0, RUMQATISS_NOT_LIVE },                                    /* nobody has this number yet */
        { "01010501", "0301", 0, RUMQATISS_NOT_LIVE },                              /* whoever had it has ended */
        { "01", "03fd", 0, RUMQATISS_NOT_LIVE },
        { "01", "03fe", 0, RUMQATISS_BAD_NUMBER }
    };
    for (size_t i = 0; i < sizeof rows / sizeof rows[0]; i++) {
        uint8_t b[RUMQATISS_LONGEST_IMAGE], kind, runs;
        uint32_t count, read;
        uint16_t len;
        struct part log = bytes_in(rows[i].log), rec = bytes_in(rows[i].record);
        struct chosen c = { RUMQATISS_RUN, rows[i].runs };
        line = (int)i + 1;
        uint8_t code = rumqatiss_replay(fresh.at, fresh.len, log.at, log.len, b, sizeof b, &kind, &runs, &count, &read, &len);
        if (code != RUMQATISS_DONE) broken("a log was expected");
        try_board((struct part){ b, len }, rec, ROOM, MARK, rows[i].code, c, RUMQATISS_NOBODY, none);
        try_board((struct part){ b, len }, rec, 0, MARK, rows[i].code, c, RUMQATISS_NOBODY, none);
    }
}

/* A thread ends, and all who stood in a call to it are told: two senders, of which one was received, and the listeners in places 0
   and 3. They join ready in the order of these groups. From then on nobody can listen for it. */
static void try_end(void) {
    static char log[] = "010101010101" "0305" "020544332211" "0205efbeadde" "0305" "07" "0302" "07", end[] = "0505", receive[] = "0305";
    static char ended[] = "040504050400" "000000000000000000000000000000000000000000000000"
                          "000000000000000000000000000000000000000000000000" "9600"
                          "00005000" "01015e00" "02026c00" "03037a00" "04048800" "01020003"
                          "02ff00000000" "100500000000" "00ff" "02ff00000000" "100544332211" "0000" "02ff00000000" "1005efbeadde" "0000"
                          "02ff00000000" "100500000000" "0000" "01ff00000000" "00ff00000000" "0000";
    uint8_t b[RUMQATISS_LONGEST_IMAGE], kind, runs;
    uint32_t count, read;
    uint16_t len;
    struct part before = bytes_in(log), after = bytes_in(ended);
    struct chosen c = { RUMQATISS_RUN, 4 };
    line = 0;
    uint8_t code = rumqatiss_replay(fresh.at, fresh.len, before.at, before.len, b, sizeof b, &kind, &runs, &count, &read, &len);
    if (code != RUMQATISS_DONE) broken("a log was expected");
    try_board((struct part){ b, len }, bytes_in(end), ROOM, MARK, RUMQATISS_DONE, c, RUMQATISS_NOBODY, after);
    try_board(after, bytes_in(receive), ROOM, MARK, RUMQATISS_NOT_LIVE, c, RUMQATISS_NOBODY, none);
}

/* The running thread 1 ends, and with it its children 5 and 6, and 7, which is the child of 5: 7 first, then 5, 6 and 1. Each tells those
   who stood in a call to it: 4 listens for 7; 3 and 6 have sent to 5, so that 6 is woken, and ends in its turn; 2 awaits the reply
   of 6; and 0, the parent of 1, listens for it. They join ready in this order, and the first of them runs. The end of 5 alone takes 7
   with it and nobody else. */
static void try_family(void) {
    static char log[] = "0101010101" "0301" "0101" "07" "020644332211" "0205efbeadde" "07" "01" "06" "0302" "0205785634f2" "07" "0307" "0921";
    static char end_1[] = "0501", end_5[] = "0505";
    static char ended_1[] = "040704040300" "000000000000000000000000000000000000000000000000"
                            "000000000000000000000000000000000000000000000000" "8300"
                            "00004b00" "02025900" "03036700" "04047500" "030200"
                            "02ff00000000" "100100000000" "00ff" "02ff00000000" "100644332211" "0000" "02ff00000000" "1005efbeadde" "0000"
                            "01ff00000000" "100700000000" "0000";
    static char ended_5[] = "040701060300" "000000000000000000000000000000000000000000000000"
                            "000000000000000000000000000000000000000000000000" "a700"
                            "00005300" "01016100" "02026f00" "03037d00" "04048b00" "06069900" "040306"
                            "050100000000" "00ff00000000" "00ff" "01ff00000000" "00ff00000000" "0000" "040644332211" "00ff00000000" "0000"
                            "02ff00000000" "1005efbeadde" "0000" "02ff00000000" "100700000000" "0000" "02ff00000000" "1005785634f2" "0001";
    uint8_t b[RUMQATISS_LONGEST_IMAGE];
    struct part before = image_after(fresh, bytes_in(log), b);
    struct chosen run_1 = { RUMQATISS_RUN, 1 }, run_4 = { RUMQATISS_RUN, 4 };
    line = 1;
    try_board(before, bytes_in(end_1), ROOM, MARK, RUMQATISS_DONE, run_4, RUMQATISS_NOBODY, bytes_in(ended_1));
    line = 5;
    try_board(before, bytes_in(end_5), ROOM, MARK, RUMQATISS_DONE, run_1, RUMQATISS_NOBODY, bytes_in(ended_5));
}

/* ---- images that are made here */

static void put_number(uint8_t *at, size_t n) {
    at[0] = (uint8_t)n;
    at[1] = (uint8_t)(n >> 8);
}

/* An image of threads 0 to n - 1, each in the place of its number, with room for so many places in the queues. The queues, how long each is, and the
   standings are still to be filled in. Nobody runs or has a partner or a parent, and the last number given is that of the last place. */
static struct part lay_out(uint8_t b[RUMQATISS_LONGEST_IMAGE], uint8_t edition, uint8_t n, size_t queued) {
    struct part im = { b, 0 };
    b[0] = edition;
    size_t contents = contents_of(im), one = body_length(im), bodies = contents + 4 * (size_t)n + queued;
    im.len = bodies + one * n;
    memset(b, 0, im.len);
    memcpy(b, (uint8_t[4]){ edition, PLACES - 1, RUMQATISS_NOBODY, n }, 4);
    put_number(b + contents - 2, im.len);
    for (uint8_t i = 0; i < n; i++) {
        uint8_t *entry = b + contents + 4 * i, *body = b + bodies + one * i;
        entry[0] = entry[1] = i;
        put_number(entry + 2, (size_t)(body - b));
        body[1] = body[7] = RUMQATISS_NOBODY;
        if (one > 13) body[13] = RUMQATISS_NOBODY;
    }
    return im;
}

/* As many creates from fresh, in edition 3 or a later one: thread 0 runs, and is the parent of all others, which are ready. */
static struct part created(uint8_t b[RUMQATISS_LONGEST_IMAGE], uint8_t edition, uint8_t n) {
    uint8_t ready = n == 0 ? 0 : n - 1;
    struct part im = lay_out(b, edition, n, ready);
    b[1] = n == 0 ? 253 : n - 1;
    b[2] = n == 0 ? RUMQATISS_NOBODY : 0;
    b[4] = ready;
    for (uint8_t i = 0; i < n; i++) {
        uint8_t *body = b + body_at(im, i);
        body[0] = i == 0 ? 1 : 2;
        if (i > 0) body[13] = 0;
        if (i > 0) b[contents_end(im) + i - 1] = i;
    }
    return im;
}

/* Threads of which each was created by the one before it, which then went to wait for the clock. Where the last thread runs it does not wait with the
   others. */
static struct part chain(uint8_t b[RUMQATISS_LONGEST_IMAGE], uint8_t n, int runs) {
    uint8_t waiting = (uint8_t)(n - runs);
    struct part im = lay_out(b, EDITION, n, waiting);
    if (runs) b[2] = n - 1;
    b[5] = waiting;
    for (uint8_t i = 0; i < n; i++) {
        uint8_t *body = b + body_at(im, i);
        body[0] = i < waiting ? 6 : 1;
        if (i > 0) body[13] = i - 1;
        if (i < waiting) b[contents_end(im) + i] = i;
    }
    return im;
}

/* The byte of an image, beside its contents, that names the place of thread 1. */
enum named { NOWHERE, IN_READY, AT_CLOCK, AT_DEVICE, IN_INBOX, AS_RUNNING };

/* Threads 0, in place 0, and 1, in another place. Beside the contents one more byte may name that place: `at` becomes where it stands. Thread 0 runs, and
   thread 1 awaits its reply, is ready, waits for the clock, waits at device 33 or sends to it; or thread 1 runs, and 0 is ready. */
static struct part pair_in(uint8_t b[RUMQATISS_LONGEST_IMAGE], uint8_t edition, uint8_t place, enum named by, size_t *at) {
    static const uint8_t standings[] = { 4, 2, 6, 7, 3, 1 }, partners[] = { 0, 255, 255, 33, 0, 255 };
    struct part im = lay_out(b, edition, 2, by != NOWHERE && by != IN_INBOX);
    size_t contents = contents_of(im), second = body_at(im, 1);
    uint8_t *body = b + body_at(im, 0);
    body[0] = by == AS_RUNNING ? 2 : 1;
    if (by == IN_INBOX) {
        memmove(b + second + 1, b + second, im.len++ - second);
        *at = second++;
        body[12] = 1;
        put_number(b + contents - 2, im.len);
        put_number(b + contents + 6, second);
    } else {
        *at = by == AS_RUNNING ? 2 : contents_end(im);
    }
    b[second] = standings[by];
    b[second + 1] = partners[by];
    b[2] = 0;
    b[4] = by == IN_READY || by == AS_RUNNING;
    if (by == AT_CLOCK) b[5] = 1;
    if (by == AT_DEVICE) b[6 + 33] = 1;
    if (by != NOWHERE) b[*at] = place;
    b[contents + 4] = place;
    return im;
}

/* ---- what is tried on them */

/* Creates one by one, until all places are filled and one more is refused. From an image of the edition before, which holds fewer places, they go on as
   well. Then whoever is in a place ends, and the next thread gets that place, with a number that nobody had yet. */
static void try_creates(void) {
    static const uint8_t create = RUMQATISS_CREATE;
    struct part rec = { &create, 1 };
    uint8_t b[2][RUMQATISS_LONGEST_IMAGE];
    for (line = 0; line < PLACES; line++) {
        uint8_t n = (uint8_t)line;
        struct part after = created(b[1], EDITION, n + 1);
        try_board(created(b[0], EDITION, n), rec, ROOM, MARK, RUMQATISS_DONE, run_0, n, after);
        if (n <= OLD_PLACES) try_board(created(b[0], EDITION - 1, n), rec, ROOM, MARK, RUMQATISS_DONE, run_0, n, after);
    }
    struct part full = created(b[0], EDITION, PLACES);
    try_board(full, rec, ROOM, MARK, RUMQATISS_FULL, run_0, RUMQATISS_NOBODY, none);
    try_board(full, rec, 0, MARK, RUMQATISS_FULL, run_0, RUMQATISS_NOBODY, none);
    try_replay(full, rec, ROOM, RUMQATISS_DONE, run_0, 1, 1, full);
    for (line = 1; line < PLACES; line++) {
        uint8_t n = (uint8_t)line, log[] = { RUMQATISS_END, n, RUMQATISS_CREATE };
        struct part after = created(b[1], EDITION, PLACES);
        uint8_t *ready = b[1] + contents_end(after);
        b[1][1] = b[1][contents_of(after) + 4 * n + 1] = PLACES;
        memmove(ready + n - 1, ready + n, PLACES - 1 - n);
        ready[PLACES - 2] = n;
        try_replay(full, (struct part){ log, sizeof log }, ROOM, RUMQATISS_DONE, run_0, 2, sizeof log, after);
    }
}

/* The longest line of parents, in all places: the end of any of them ends all behind it too. The end of the first is what goes deepest, so that
   the stack which that takes is measured here. */
static void try_chain(void) {
    uint8_t b[2][RUMQATISS_LONGEST_IMAGE], log[1 + 2 * (PLACES - 1)] = { RUMQATISS_CREATE }, end[2] = { RUMQATISS_END, 0 };
    struct part before = chain(b[0], PLACES, 1);
    for (int i = 0; i < PLACES - 1; i++) {
        log[1 + 2 * i] = RUMQATISS_CREATE;
        log[2 + 2 * i] = RUMQATISS_WAIT_CLOCK;
    }
    line = 0;
    try_replay(fresh, (struct part){ log, sizeof log }, ROOM, RUMQATISS_DONE, choice_of(before), sizeof log, sizeof log, before);
    for (line = 0; line < PLACES; line++) {
        struct part rec = { end, 2 }, after = chain(b[1], (uint8_t)line, 0);
        end[1] = (uint8_t)line;
        try_board(before, rec, ROOM, MARK, RUMQATISS_DONE, choice_of(after), RUMQATISS_NOBODY, after);
        try_replay(before, rec, ROOM, RUMQATISS_DONE, choice_of(after), 1, 2, after);
        try_told(before, rec, RUMQATISS_DONE, 1, 2, after);
    }
}

/* An image that no function takes. */
static void try_refused(struct part im) {
    static const uint8_t tick = RUMQATISS_TICK;
    try_board(im, (struct part){ &tick, 1 }, ROOM, MARK, RUMQATISS_NO_IMAGE, halt, RUMQATISS_NOBODY, none);
    try_replay(im, none, ROOM, RUMQATISS_NO_IMAGE, halt, 0, 0, none);
    try_look_up(im, 0, RUMQATISS_NO_IMAGE, 0, 0);
    try_update(im, ROOM, RUMQATISS_NO_IMAGE, halt, none);
    try_image_refused(im, none, RUMQATISS_NO_IMAGE);
}

/* Every byte as the parent of thread 0: in a pair where 1 has no parent, in one where 0 is the parent of 1, and in the longest line, where
   each thread is the parent of the next. A parent that does not live, a thread that is its own parent, and a ring get 10. */
static void try_parents(void) {
    static const uint8_t threads[3] = { 2, 2, PLACES };
    uint8_t b[RUMQATISS_LONGEST_IMAGE];
    for (int n = 0; n < 3; n++) {
        struct part im = chain(b, threads[n], 1);
        size_t parent = im.len - 14 * (size_t)threads[n] + 13;
        if (n == 0) b[parent + 14] = RUMQATISS_NOBODY;
        for (line = 0; line <= 255; line++) {
            b[parent] = (uint8_t)line;
            if (line == RUMQATISS_NOBODY || (n == 0 && line == 1)) try_updated(im, im);
            else try_refused(im);
        }
    }
}

/* Every byte as the place of a thread, in every edition: the place is one that the edition holds, or the image gets 10, whatever else names the place. And
   where only one byte names another place than the contents, it gets 10 too. */
static void try_places(void) {
    uint8_t b[2][RUMQATISS_LONGEST_IMAGE];
    size_t at;
    for (uint8_t edition = 1; edition <= EDITION; edition++) {
        int places = edition < EDITION ? OLD_PLACES : PLACES;
        for (enum named by = NOWHERE; by <= AS_RUNNING; by++) {
            if (edition == 1 && by == AT_DEVICE) continue;
            for (line = 1; line <= 255; line++) {
                struct part im = pair_in(b[0], edition, (uint8_t)line, by, &at);
                if (line >= places) {
                    try_refused(im);
                    continue;
                }
                try_updated(im, pair_in(b[1], EDITION, (uint8_t)line, by, &at));
                try_look_up(im, 1, RUMQATISS_DONE, (uint16_t)body_at(im, 1), (uint16_t)body_length(im));
            }
            if (by == NOWHERE) continue;
            struct part im = pair_in(b[0], edition, OLD_PLACES - 1, by, &at);
            for (line = 0; line <= 255; line++) {
                if (line == OLD_PLACES - 1) continue;
                b[0][at] = (uint8_t)line;
                try_refused(im);
            }
        }
    }
    /* the longest line of parents that the edition before holds keeps its parents, and one that is longer is refused */
    struct part im = chain(b[0], OLD_PLACES, 1);
    b[0][0] = EDITION - 1;
    try_updated(im, chain(b[1], OLD_PLACES, 1));
    im = chain(b[0], OLD_PLACES + 1, 1);
    b[0][0] = EDITION - 1;
    try_refused(im);
}

/* The last number given is 253, and thread 0 lives alone: a create gives 1, but where the thread's answer names 1, it gives 2. */
static void try_named(void) {
    static const uint8_t create = RUMQATISS_CREATE, answers[2][6] = { { 0, 255 }, { 16, 1, 0x0d, 0xf0, 0xad, 0x8b } };
    struct part rec = { &create, 1 };
    for (line = 0; line < 2; line++) {
        uint8_t given = (uint8_t)(1 + line), alone[74] = { EDITION, 253, 0, 1, [54] = 74, [58] = 60, [60] = 1, 255, [73] = 255 };
        uint8_t pair[93] = { EDITION, given, 0, 2, 1, [54] = 93, [58] = 65, [60] = 1, given, 79, [64] = 1, 1, 255, [78] = 255, 2, 255, [86] = 255 };
        struct part before = { alone, sizeof alone }, after = { pair, sizeof pair };
        memcpy(alone + 66, answers[line], 6);
        memcpy(pair + 71, answers[line], 6);
        try_board(before, rec, ROOM, MARK, RUMQATISS_DONE, run_0, given, after);
        try_replay(before, rec, ROOM, RUMQATISS_DONE, run_0, 1, 1, after);
    }
}

/* The first thread waits at a device, which then interrupts. */
static void try_devices(void) {
    static const uint8_t waiting_bytes[75] = { EDITION, 0, 255, 1, [6 + 33] = 1, [54] = 75, [58] = 61, [61] = 7, 33, [68] = 255, [74] = 255 };
    static const uint8_t served_bytes[74] = { EDITION, 0, 0, 1, [54] = 74, [58] = 60, [60] = 1, 255, [67] = 255, 5, [73] = 255 };
    static const uint8_t waits[] = { RUMQATISS_WAIT_DEVICE, RUMQATISS_RECEIVER(0) }, unknown = RUMQATISS_INTERRUPT + 1;
    static const uint8_t log[] = { RUMQATISS_CREATE, RUMQATISS_WAIT_DEVICE, 33, RUMQATISS_INTERRUPT, 0, 0, 0, 0, 2, 0, 5, 0, 0, 0 };
    static struct { char record[24]; int is_served; } rows[] = {
        { "0a00000000020005000000", 1 },
        { "0a000000000e8005000000", 1 },  /* the devices behind it are pending too */
        { "0a00000000000005000000", 0 },  /* an empty set */
        { "0a00000000030005000000", 0 },  /* the device before it is first, and nobody waits there */
        { "0a00000000fdff05000000", 0 }   /* all others of the terminals */
    };
    struct part waiting = { waiting_bytes, sizeof waiting_bytes }, served = { served_bytes, sizeof served_bytes };
    line = 0;
    try_board(first, (struct part){ waits, sizeof waits }, ROOM, MARK, RUMQATISS_DONE, wait, RUMQATISS_NOBODY, waiting);
    try_board(waiting, (struct part){ waits, sizeof waits }, ROOM, MARK, RUMQATISS_NOBODY_RUNS, wait, RUMQATISS_NOBODY, none);
    try_look_up(waiting, 0, RUMQATISS_DONE, 61, 14);
    for (size_t i = 0; i < sizeof rows / sizeof rows[0]; i++) {
        struct part rec = bytes_in(rows[i].record);
        line = (int)i + 1;
        if (rows[i].is_served) try_board(waiting, rec, ROOM, MARK, RUMQATISS_DONE, run_0, RUMQATISS_NOBODY, served);
        else try_board(waiting, rec, ROOM, MARK, RUMQATISS_DONE, wait, RUMQATISS_NOBODY, waiting);
    }
    try_replay(fresh, (struct part){ log, sizeof log }, ROOM, RUMQATISS_DONE, run_0, 3, sizeof log, served);
    try_replay(fresh, (struct part){ log, sizeof log - 1 }, ROOM, RUMQATISS_CUT_SHORT, wait, 2, 3, waiting);
    try_replay(fresh, (struct part){ log, 2 }, ROOM, RUMQATISS_CUT_SHORT, run_0, 1, 1, first);
    try_replay(fresh, (struct part){ log + 1, 1 }, ROOM, RUMQATISS_CUT_SHORT, halt, 0, 0, fresh);
    try_replay(fresh, (struct part){ &unknown, 1 }, ROOM, RUMQATISS_UNKNOWN_KIND, halt, 0, 0, fresh);
}

/* The macros give the indexes in the order of lines and devices. */
_Static_assert(RUMQATISS_DEVICE(3, 0) == 0 && RUMQATISS_DEVICE(3, 7) == 7 && RUMQATISS_DEVICE(4, 0) == 8, "devices");
_Static_assert(RUMQATISS_DEVICE(6, 7) == 31 && RUMQATISS_TRANSMITTER(0) == 32 && RUMQATISS_RECEIVER(0) == 33, "terminals");
_Static_assert(RUMQATISS_TRANSMITTER(7) == 46 && RUMQATISS_RECEIVER(7) == 47 && RUMQATISS_DEVICES == 48, "the last terminal");

/* Images of editions 1 to 3 are taken, and what comes of them is of edition 4. Nobody in these has a parent, so an end ends one thread. */
static void try_editions(void) {
    static const uint8_t old_fresh[3][56] = { { 1, 253, 255, 0, 0, 0, 8, 0 }, { 2, 253, 255, [54] = 56 }, { 3, 253, 255, [54] = 56 } };
    static char first_pair[] = "010100020100" "2b00" "00001100" "01011e00" "01" "01ff00000000" "00ff00000000" "00" "02ff00000000" "00ff00000000" "00";
    static char second_pair[] = "020100020100" "000000000000000000000000000000000000000000000000"
                                "000000000000000000000000000000000000000000000000" "5b00" "00004100" "01014e00" "01"
                                "01ff00000000" "00ff00000000" "00" "02ff00000000" "00ff00000000" "00";
    static char third_pair[] = "030100020100" "000000000000000000000000000000000000000000000000"
                               "000000000000000000000000000000000000000000000000" "5d00" "00004100" "01014f00" "01"
                               "01ff00000000" "00ff00000000" "00ff" "02ff00000000" "00ff00000000" "00ff";
    static char pair[] = "040100020100" "000000000000000000000000000000000000000000000000"
                         "000000000000000000000000000000000000000000000000" "5d00" "00004100" "01014f00" "01"
                         "01ff00000000" "00ff00000000" "00ff" "02ff00000000" "00ff00000000" "00ff";
    static char left[] = "040101010000" "000000000000000000000000000000000000000000000000"
                         "000000000000000000000000000000000000000000000000" "4a00" "01013c00" "01ff00000000" "00ff00000000" "00ff";
    static const uint8_t tick = RUMQATISS_TICK, end[] = { RUMQATISS_END, 0 };
    uint8_t b[RUMQATISS_LONGEST_IMAGE];
    struct part old[3] = { bytes_in(first_pair), bytes_in(second_pair), bytes_in(third_pair) };
    struct part now = bytes_in(pair), alone = bytes_in(left), changed = { b, 0 };
    struct chosen run_1 = { RUMQATISS_RUN, 1 };
    for (int i = 0; i < 3; i++) {
        line = i + 1;
        try_told(old[i], none, RUMQATISS_DONE, 0, 0, now);
        try_updated((struct part){ old_fresh[i], i == 0 ? 8 : 56 }, fresh);
        try_replay((struct part){ old_fresh[i], i == 0 ? 8 : 56 }, none, ROOM, RUMQATISS_DONE, halt, 0, 0, fresh);
        try_updated(old[i], now);
        try_replay(old[i], none, ROOM, RUMQATISS_DONE, run_0, 0, 0, now);
        try_board(old[i], (struct part){ &tick, 1 }, ROOM, MARK, RUMQATISS_DONE, run_0, RUMQATISS_NOBODY, now);
        try_board(old[i], (struct part){ end, sizeof end }, ROOM, MARK, RUMQATISS_DONE, run_1, RUMQATISS_NOBODY, alone);
    }
    try_look_up(old[0], 1, RUMQATISS_DONE, 30, 13);
    try_look_up(old[1], 1, RUMQATISS_DONE, 78, 13);
    try_look_up(old[2], 1, RUMQATISS_DONE, 79, 14);
    try_look_up(now, 1, RUMQATISS_DONE, 79, 14);
    /* nobody waits at a device in edition 1 */
    memcpy(b, old[0].at, changed.len = old[0].len);
    b[30] = 7;
    b[31] = 33;
    try_board(changed, (struct part){ &tick, 1 }, ROOM, MARK, RUMQATISS_NO_IMAGE, halt, RUMQATISS_NOBODY, none);
    /* a body of edition 2 is none of a later edition, nor the other way round: their heads are alike, and only the edition says which it is */
    memcpy(b, old[1].at, changed.len = old[1].len);
    for (b[0] = 3; b[0] <= EDITION; b[0]++) try_refused(changed);
    memcpy(b, now.at, changed.len = now.len);
    b[0] = 2;
    try_refused(changed);
    /* the edition comes before its head's length, and under 8 bytes before both */
    memcpy(b, fresh.at, fresh.len);
    for (line = 0; line <= 255; line++) {
        b[0] = (uint8_t)line;
        for (changed.len = 0; changed.len < fresh.len; changed.len++) {
            int is_length = changed.len < 8 || (line >= 1 && line <= EDITION);
            try_look_up(changed, 0, is_length ? RUMQATISS_BAD_LENGTH : RUMQATISS_OTHER_EDITION, 0, 0);
            try_update(changed, ROOM, is_length ? RUMQATISS_BAD_LENGTH : RUMQATISS_OTHER_EDITION, halt, none);
            try_image_refused(changed, none, is_length ? RUMQATISS_BAD_LENGTH : RUMQATISS_OTHER_EDITION);
        }
    }
}

/* One thread, which receives from each number in turn, in images of every edition: an update wakes it where no live thread has the
   number. What it may not name (254, and its own number) no rules allowed. */
static void try_listener(void) {
    static char first_image[] = "0100ff010000" "1900" "00000c00" "05ff00000000" "00ff00000000" "00";
    static char second_image[] = "0200ff010000" "000000000000000000000000000000000000000000000000"
                                 "000000000000000000000000000000000000000000000000" "4900" "00003c00" "05ff00000000" "00ff00000000" "00";
    static char third_image[] = "0300ff010000" "000000000000000000000000000000000000000000000000"
                                "000000000000000000000000000000000000000000000000" "4a00" "00003c00" "05ff00000000" "00ff00000000" "00ff";
    static char fourth_image[] = "0400ff010000" "000000000000000000000000000000000000000000000000"
                                 "000000000000000000000000000000000000000000000000" "4a00" "00003c00" "05ff00000000" "00ff00000000" "00ff";
    struct part im[EDITION] = { bytes_in(first_image), bytes_in(second_image), bytes_in(third_image), bytes_in(fourth_image) };
    uint8_t listens[EDITION][sizeof first_bytes], woken[sizeof first_bytes];
    memcpy(woken, first_bytes, sizeof woken);
    woken[66] = 16;
    for (line = 0; line <= 255; line++) {
        woken[67] = (uint8_t)line;
        for (int i = 0; i < EDITION; i++) {
            struct part by = { listens[i], im[i].len };
            memcpy(listens[i], im[i].at, im[i].len);
            listens[i][im[i].len - body_length(im[i]) + 1] = (uint8_t)line;
            if (line == RUMQATISS_NOBODY) {
                try_updated(by, im[EDITION - 1]);
                continue;
            }
            try_replay(by, none, ROOM, RUMQATISS_NO_IMAGE, halt, 0, 0, none);
            try_look_up(by, 0, RUMQATISS_NO_IMAGE, 0, 0);
            if (line == 0 || line == 254) {
                try_update(by, ROOM, RUMQATISS_NO_IMAGE, halt, none);
                try_update(by, 0, RUMQATISS_NO_IMAGE, halt, none);
            } else {
                try_updated(by, (struct part){ woken, sizeof woken });
            }
        }
    }
    listens[0][im[0].len - 12] = 5;
    for (size_t room = 0; room < sizeof woken; room++) {
        try_update((struct part){ listens[0], im[0].len }, room, RUMQATISS_SHORT_BUFFER, run_0, none);
    }
}

/* A thread of every standing, with numbers that do not rise with the places. Those in places 1 and 2 receive from nobody who lives; the
   first of them has one load in its inbox, and has received another. They join ready in this order, behind whoever is there, and
   nobody else is touched: not the listener for a live thread, nor the receiver from anyone. */
static void try_listeners(void) {
    static char before[] = "02fd000a0101" "000000000000000000000000000000000000000000000000"
                           "000000000000000001000000000000000000000000000000" "e600"
                           "00096300" "01047000" "02027e00" "03088b00" "04019800" "0503a500" "0607b200" "0705bf00" "080bcc00" "1f06d900"
                           "04" "1f" "07" "01ff00000000" "00ff00000000" "00"
                           "05c800000000" "000389efcdab" "0103" "050a00000000" "00ff00000000" "00"
                           "030401020384" "00ff00000000" "00" "02ff00000000" "00ff07000000" "00" "040489efcdab" "100a77665544" "00"
                           "05ff00000000" "00ff00000000" "00" "072000000000" "000901000000" "00" "050900000000" "00ff00000000" "00"
                           "06ff00000000" "00ff00000000" "00";
    static char after[] = "04fd000a0301" "000000000000000000000000000000000000000000000000"
                          "000000000000000001000000000000000000000000000000" "f200"
                          "00096500" "01047300" "02028200" "03089000" "04019e00" "0503ac00" "0607ba00" "0705c800" "080bd600" "1f06e400"
                          "040102" "1f" "07" "01ff00000000" "00ff00000000" "00ff"
                          "02ff00000000" "10c800000000" "01ff03" "02ff00000000" "100a00000000" "00ff"
                          "030401020384" "00ff00000000" "00ff" "02ff00000000" "00ff07000000" "00ff" "040489efcdab" "100a77665544" "00ff"
                          "05ff00000000" "00ff00000000" "00ff" "072000000000" "000901000000" "00ff" "050900000000" "00ff00000000" "00ff"
                          "06ff00000000" "00ff00000000" "00ff";
    line = 0;
    try_updated(bytes_in(before), bytes_in(after));
}

/* As many threads as an edition holds, and each receives from a number of its own that nobody has: all are woken, and the first runs. */
static void try_all_listen(void) {
    uint8_t b[2][RUMQATISS_LONGEST_IMAGE];
    for (line = 1; line <= EDITION; line++) {
        uint8_t n = line < EDITION ? OLD_PLACES : PLACES;
        struct part before = lay_out(b[0], (uint8_t)line, n, 0), after = lay_out(b[1], EDITION, n, n - 1);
        b[1][2] = 0;
        b[1][4] = n - 1;
        for (uint8_t i = 0; i < n; i++) {
            uint8_t *listens = b[0] + body_at(before, i), *woken = b[1] + body_at(after, i);
            listens[0] = 5;
            listens[1] = woken[7] = 100 + i;
            woken[0] = i == 0 ? 1 : 2;
            woken[6] = 16;
            if (i > 0) b[1][contents_end(after) + i - 1] = i;
        }
        try_updated(before, after);
    }
}

/* Each thread in turn is served by its device, and waits there again. Where two wait at one device both are served, so that they stand in the same order as
   before. How many bytes that is. */
static size_t put_served(uint8_t *log) {
    size_t at = 0;
    for (int i = 0; i < PLACES; i++) {
        uint8_t device = i % RUMQATISS_DEVICES;
        memset(log + at, 0, 11);
        log[at] = RUMQATISS_INTERRUPT;
        log[at + 1 + device / 8] = (uint8_t)(1 << device % 8);
        log[at + 11] = RUMQATISS_WAIT_DEVICE;
        log[at + 12] = device;
        at += 13;
    }
    return at;
}

/* All are woken by a tick, and wait for the clock again. How many bytes that is. */
static size_t put_tick(uint8_t *log) {
    log[0] = RUMQATISS_TICK;
    memset(log + 1, RUMQATISS_WAIT_CLOCK, PLACES);
    return 1 + PLACES;
}

/* The longest log of threads that wait, as many as there are places: they are woken and wait again; at last slice ends, while nobody runs. How many records
   that is. */
static uint32_t fill_log(uint8_t log[RUMQATISS_LONGEST_LOG], int at_devices) {
    size_t round = at_devices ? put_served(log) : put_tick(log), at = 0;
    uint32_t count = 0;
    for (; at + round <= RUMQATISS_LONGEST_LOG; at += round) {
        if (at_devices) put_served(log + at);
        else put_tick(log + at);
        count += at_devices ? 2 * PLACES : 1 + PLACES;
    }
    memset(log + at, RUMQATISS_SLICE_END, RUMQATISS_LONGEST_LOG - at);
    return count + (uint32_t)(RUMQATISS_LONGEST_LOG - at);
}

_Static_assert(RUMQATISS_LONGEST_IMAGE == 56 + PLACES * (4 + 1 + 14), "all places are filled, and whoever is there stands in a queue");

/* The longest image: as many threads as there are places, all of them waiting, for the clock or at the devices. There are fewer devices than places, so
   those behind the last device begin with the first again. One create more than there are places is refused, and changes nothing. */
static void try_longest(int at_devices) {
    static const uint8_t create = RUMQATISS_CREATE;
    uint8_t log[3 * PLACES + 1], full[RUMQATISS_LONGEST_IMAGE], queues = at_devices ? RUMQATISS_DEVICES : 1;
    struct part after = lay_out(full, EDITION, PLACES, PLACES), rec = { &create, 1 };
    size_t n = PLACES + 1, queue = contents_end(after);
    memset(log, RUMQATISS_CREATE, n);
    for (uint8_t i = 0; i < PLACES; i++) {
        uint8_t *body = full + body_at(after, i), device = i % RUMQATISS_DEVICES;
        log[n++] = at_devices ? RUMQATISS_WAIT_DEVICE : RUMQATISS_WAIT_CLOCK;
        if (at_devices) log[n++] = device;
        full[at_devices ? 6 + device : 5]++;
        body[0] = at_devices ? 7 : 6;
        if (at_devices) body[1] = device;
        if (i > 0) body[13] = 0;
    }
    for (uint8_t q = 0; q < queues; q++) {
        for (uint8_t i = q; i < PLACES; i += queues) full[queue++] = i;
    }
    struct part all = { log, n };
    line = 0;
    try_replay(fresh, all, sizeof full, RUMQATISS_DONE, wait, 2 * PLACES + 1, (uint32_t)n, after);
    try_replay(fresh, all, sizeof full - 1, RUMQATISS_SHORT_BUFFER, halt, 0, 0, none);
    try_board(after, rec, ROOM, MARK, RUMQATISS_FULL, wait, RUMQATISS_NOBODY, none);
    try_look_up(after, PLACES - 1, RUMQATISS_DONE, RUMQATISS_LONGEST_IMAGE - 14, 14);
    try_told(fresh, all, RUMQATISS_DONE, 2 * PLACES + 1, (uint32_t)n, after);
    static uint8_t longest[RUMQATISS_LONGEST_LOG];
    uint32_t count = fill_log(longest, at_devices);
    try_replay(after, (struct part){ longest, sizeof longest }, sizeof full, RUMQATISS_DONE, wait, count, RUMQATISS_LONGEST_LOG, after);
    try_told(after, (struct part){ longest, sizeof longest }, RUMQATISS_DONE, count, RUMQATISS_LONGEST_LOG, after);
}

/* The document's own text, of the 43-byte image that document 01 counted. */
static void try_document(void) {
    static char pair[] = "010100020100" "2b00" "00001100" "01011e00" "01" "01ff00000000" "00ff00000000" "00" "02ff00000000" "00ff00000000" "00";
    line = 0;
    said.len = 0;
    say("threads 2 ready 1 clock 0\n0 place 0 running\n1 place 1 ready\nnext run 0\nlog 0 records 0 bytes whole\n");
    try_said(bytes_in(pair), none);
}

/* The longest report: as many threads as there are places, with numbers of three digits, each of which receives from the next; and behind as many ticks as have
   five digits a byte that begins no record. */
static void try_longest_report(void) {
    static uint8_t log[10001];
    uint8_t b[RUMQATISS_LONGEST_IMAGE];
    struct part im = lay_out(b, EDITION, PLACES, 0);
    b[1] = 100 + PLACES - 1;
    for (uint8_t i = 0; i < PLACES; i++) {
        uint8_t *body = b + body_at(im, i);
        b[contents_of(im) + 4 * i + 1] = 100 + i;
        body[0] = 5;
        body[1] = 100 + (i + 1) % PLACES;
    }
    memset(log, RUMQATISS_TICK, 10000);
    line = 0;
    try_told(im, (struct part){ log, sizeof log }, RUMQATISS_UNKNOWN_KIND, 10000, 10000, im);
    if (said.len != RUMQATISS_LONGEST_REPORT) broken("the longest report has another length");
}

/* Lengths at which two bytes, or the log's limit, end. */
static void try_large(void) {
    static uint8_t b[65536 + sizeof fresh_bytes];
    static const uint8_t tick = RUMQATISS_TICK;
    struct part large = { b, sizeof b }, rec = { &tick, 1 };
    line = 0;
    memset(b, RUMQATISS_SLICE_END, sizeof b);
    try_replay(fresh, (struct part){ b, RUMQATISS_LONGEST_LOG }, ROOM, RUMQATISS_DONE, halt, RUMQATISS_LONGEST_LOG, RUMQATISS_LONGEST_LOG, fresh);
    try_replay(fresh, (struct part){ b, RUMQATISS_LONGEST_LOG + 1 }, ROOM, RUMQATISS_LONG_LOG, halt, 0, 0, none);
    try_replay(fresh, (struct part){ b, RUMQATISS_LONGEST_LOG + 1 }, 0, RUMQATISS_LONG_LOG, halt, 0, 0, none);
    try_told(fresh, (struct part){ b, RUMQATISS_LONGEST_LOG }, RUMQATISS_DONE, RUMQATISS_LONGEST_LOG, RUMQATISS_LONGEST_LOG, fresh);
    try_log_refused(fresh, (struct part){ b, RUMQATISS_LONGEST_LOG + 1 });
    try_log_refused(fresh, large);
    /* 65,592 is 56 in two bytes, as this image's length field says */
    memcpy(b, fresh_bytes, sizeof fresh_bytes);
    try_board(large, rec, ROOM, MARK, RUMQATISS_BAD_LENGTH, halt, RUMQATISS_NOBODY, none);
    try_replay(large, large, ROOM, RUMQATISS_BAD_LENGTH, halt, 0, 0, none);
    try_look_up(large, 0, RUMQATISS_BAD_LENGTH, 0, 0);
    try_update(large, ROOM, RUMQATISS_BAD_LENGTH, halt, none);
    try_image_refused(large, large, RUMQATISS_BAD_LENGTH);
    b[0] = 9;
    try_board(large, rec, ROOM, MARK, RUMQATISS_OTHER_EDITION, halt, RUMQATISS_NOBODY, none);
    try_update(large, ROOM, RUMQATISS_OTHER_EDITION, halt, none);
    /* the report looks at the length before it looks at the edition */
    try_image_refused((struct part){ b, 65535 }, none, RUMQATISS_OTHER_EDITION);
    try_image_refused((struct part){ b, 65536 }, none, RUMQATISS_BAD_LENGTH);
}

/* Every empty buffer as a null pointer. */
static void try_nulls(void) {
    static const uint8_t create = RUMQATISS_CREATE;
    struct part rec = { &create, 1 };
    nulls = 1;
    line = 0;
    try_board(none, none, 0, MARK, RUMQATISS_BAD_LENGTH, halt, RUMQATISS_NOBODY, none);
    try_board(fresh, none, 0, MARK, RUMQATISS_CUT_SHORT, halt, RUMQATISS_NOBODY, none);
    try_board(fresh, rec, 0, MARK, RUMQATISS_SHORT_BUFFER, halt, RUMQATISS_NOBODY, none);
    try_replay(none, none, 0, RUMQATISS_BAD_LENGTH, halt, 0, 0, none);
    try_replay(fresh, none, 0, RUMQATISS_SHORT_BUFFER, halt, 0, 0, none);
    try_replay(fresh, none, ROOM, RUMQATISS_DONE, halt, 0, 0, fresh);
    try_look_up(none, 0, RUMQATISS_BAD_LENGTH, 0, 0);
    try_update(none, 0, RUMQATISS_BAD_LENGTH, halt, none);
    try_update(fresh, 0, RUMQATISS_SHORT_BUFFER, halt, none);
    try_fresh(0, RUMQATISS_SHORT_BUFFER, none);
    try_report(none, none, 0, MARK, RUMQATISS_SHORT_BUFFER, none);
    try_report(fresh, none, 0, MARK, RUMQATISS_SHORT_BUFFER, none);
    try_image_refused(none, none, RUMQATISS_BAD_LENGTH);
    try_told(fresh, none, RUMQATISS_DONE, 0, 0, fresh);
    nulls = 0;
}

int main(int argc, char **argv) {
    if (argc < 7) {
        printf("usage: test BOARD.tsv LOAD.tsv REPLAY.tsv DEPOT.tsv TRACES LOG..\n");
        return 1;
    }
    paint();
    try_table("board", argv[1], 9, board_row);
    try_table("load", argv[2], 7, load_row);
    try_table("replay", argv[3], 7, replay_row);
    try_table("depot", argv[4], 7, depot_row);
    try_traces(argv[5], argv + 6, argc - 6);
    try_rooms();
    table = "record lengths";
    try_lengths();
    table = "refusals";
    try_refusals();
    table = "creates";
    try_creates();
    table = "end";
    try_end();
    table = "end of a family";
    try_family();
    table = "end of the longest line of parents";
    try_chain();
    table = "parents";
    try_parents();
    table = "places";
    try_places();
    table = "a number that an answer names";
    try_named();
    table = "devices";
    try_devices();
    table = "editions";
    try_editions();
    table = "update of a listener";
    try_listener();
    table = "update of listeners";
    try_listeners();
    table = "update of as many listeners as there can be";
    try_all_listen();
    table = "longest image, at the clock";
    try_longest(0);
    table = "longest image, at devices";
    try_longest(1);
    table = "the document's report";
    try_document();
    table = "longest report";
    try_longest_report();
    table = "large buffers";
    try_large();
    table = "null pointers";
    try_nulls();
    printf("limits: record lengths, refusals, creates, an end, families, parents, places, a named number, devices, editions, updates, the longest "
           "images, reports, large buffers and null pointers agree\n");
    if (stack_used() > RUMQATISS_STACK) {
        printf("stack: %d bytes used, %d promised\n", (int)stack_used(), RUMQATISS_STACK);
        return 1;
    }
    printf("stack: within %d bytes\n", RUMQATISS_STACK);
    return 0;
}
