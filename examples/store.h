/* The store of a board, for board.c, which keeps it from boot to boot, and update.c, which carries it over to newer rules.

   It is one file, because a log belongs to its image: with a newer image its records would happen twice, with an older one some
   would be missing. It holds, numbers with the lower byte first:

     4 bytes   RUMQ, by which a store is known
     2         the rules that it was written under, 1 or more: a build with others may make something else of the log's records, or of
               the image, and its frames may have another length
     2         the image's length
     2         a check over all of this and the image
     ..        the image
     ..        the log: a frame for each record since, as board.c makes them. Where there are none, or zeros only, the log is empty

   PROGRAM is the name by which the program that includes this file speaks of itself. */
#include <fcntl.h>
#include <stdarg.h>
#include <stdio.h>
#include <stdlib.h>
#include <string.h>
#include <unistd.h>
#include "rumqatiss.h"

enum { HEAD = 10 };  /* bytes of a store before its image */

static const uint8_t magic[4] = { 'R', 'U', 'M', 'Q' };

/* A store as it was read. */
struct kept {
    unsigned rules;
    const uint8_t *image, *log;
    size_t image_len, log_len;
};

/* ---- what is said */

__attribute__((format(printf, 1, 2))) static _Noreturn void stop(const char *why, ...) {
    va_list values;
    fflush(stdout);
    fprintf(stderr, "%s: ", PROGRAM);
    va_start(values, why);
    vfprintf(stderr, why, values);
    va_end(values);
    fprintf(stderr, "\n");
    exit(1);
}

static void say_choice(uint8_t choice, uint8_t next) {
    static const char *const choices[] = { "run", "halt", "wait", "stuck" };
    if (choice == RUMQATISS_RUN) printf("  run %d\n", next);
    else printf("  %s\n", choices[choice]);
}

/* ---- what stands in a store */

static void write_number(uint8_t *at, unsigned number) {
    at[0] = (uint8_t)number;
    at[1] = (uint8_t)(number >> 8);
}

static unsigned read_number(const uint8_t *at) {
    return at[0] | (unsigned)at[1] << 8;
}

/* A CRC of 16 bits. It goes on from the CRC of the bytes before these, which is 0xFFFF where there are none. */
static uint16_t check(uint16_t crc, const uint8_t *bytes, size_t n) {
    for (size_t i = 0; i < n; i++) {
        crc ^= bytes[i];
        for (int bit = 0; bit < 8; bit++) crc = (uint16_t)(crc & 1 ? crc >> 1 ^ 0x8408 : crc >> 1);
    }
    return crc;
}

/* The head has a check because a changed bit may make one good image another: the library cannot tell which of them was kept. */
static void make_head(uint8_t head[HEAD], unsigned rules, const uint8_t *image, size_t image_len) {
    memcpy(head, magic, sizeof magic);
    write_number(head + 4, rules);
    write_number(head + 6, (unsigned)image_len);
    write_number(head + 8, check(check(0xFFFF, head, 8), image, image_len));
}

static int zeros(const uint8_t *bytes, size_t n) {
    while (n > 0 && bytes[n - 1] == 0) n--;
    return n == 0;
}

/* A power cut may leave zeros where a frame was to be written, and no frame begins with a zero. */
static int log_is_empty(const struct kept *store) {
    return zeros(store->log, store->log_len);
}

/* Reads a store. One that cannot be what a power cut leaves is left as it is, for people to look at. */
static struct kept read_store(FILE *f) {
    static uint8_t bytes[HEAD + RUMQATISS_LONGEST_IMAGE + RUMQATISS_LONGEST_LOG + 1];  /* one more, so that a longer log shows */
    uint8_t head[HEAD];
    struct kept store;
    size_t n = fread(bytes, 1, sizeof bytes, f);
    if (ferror(f)) stop("the store cannot be read");
    if (n < HEAD || memcmp(bytes, magic, sizeof magic) != 0) stop("this is no store, and it is left as it is");
    store.rules = read_number(bytes + 4);
    store.image = bytes + HEAD;
    store.image_len = read_number(bytes + 6);
    if (store.image_len > n - HEAD) stop("the store's image is cut short, and the store is left as it is");
    make_head(head, store.rules, store.image, store.image_len);
    if (memcmp(bytes, head, HEAD) != 0) stop("the store's head or image is not as it was written, and the store is left as it is");
    if (store.rules == 0) stop("the store names rules 0, which never were, and is left as it is");
    store.log = store.image + store.image_len;
    store.log_len = n - HEAD - store.image_len;
    if (store.log_len > RUMQATISS_LONGEST_LOG) stop("the log is too long, and the store is left as it is");
    return store;
}

/* ---- what is put on the medium */

static void put(FILE *f, const uint8_t *bytes, size_t n) {
    if (fwrite(bytes, 1, n, f) != n) stop("the store cannot be written");
}

/* What was put counts only once it is on the medium, since the power may fail at any time. */
static void keep(FILE *f) {
    if (fflush(f) != 0 || fsync(fileno(f)) != 0) stop("the store cannot be written");
}

/* A name too counts only once it is on the medium, and names are on it with their folder: "a/." for "a/store", "." for "store". */
static void keep_name(const char *name) {
    char folder[256];
    const char *slash = strrchr(name, '/');
    int n = slash == NULL ? 0 : (int)(slash - name + 1);
    if (snprintf(folder, sizeof folder, "%.*s.", n, name) >= (int)sizeof folder) stop("the folder's name is too long");
    int f = open(folder, O_RDONLY | O_DIRECTORY);
    if (f < 0 || fsync(f) != 0 || close(f) != 0) stop("the store's folder cannot be written");
}

/* A store of today's rules, with this image and an empty log, takes the place of the one of that name, image and log at once: it
   is written whole under another name, and then renamed. Until the rename the old image and log are there, after it the new image,
   and never neither. */
static FILE *replace_store(const char *name, const uint8_t *image, size_t image_len) {
    char beside[256];
    uint8_t head[HEAD];
    make_head(head, RUMQATISS_RULES, image, image_len);
    if (snprintf(beside, sizeof beside, "%s.new", name) >= (int)sizeof beside) stop("the store's name is too long");
    FILE *f = fopen(beside, "wb");
    if (f == NULL) stop("the store cannot be made");
    if (fileno(f) < 3) stop("standard input, output or error is closed");  /* what is printed would go into the store */
    put(f, head, HEAD);
    put(f, image, image_len);
    keep(f);
    if (rename(beside, name) != 0) stop("the store cannot be replaced");
    keep_name(name);  /* before anything stands on it: what is written to a file that has no name yet may be lost */
    return f;         /* stays open: the log is written behind the image */
}
