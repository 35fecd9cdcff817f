/* examples/update.c on a machine whose power fails right before step CUT, which stands in the environment; with 0 it does not fail. It
   says aloud each step that it takes on the medium. Of bytes that were put and not synced the medium keeps half, so that a store which
   takes its name before it is synced shows as a torn one. */
#define _POSIX_C_SOURCE 200809L
#include <fcntl.h>
#include <stdio.h>
#include <stdlib.h>
#include <unistd.h>

static char path[256];   /* the file that is made, by its present name */
static long put_bytes;   /* how many bytes were put into it, */
static long kept_bytes;  /* and how many of them are synced */
static int folder = -1;

static void begin_step(void) {
    static unsigned step;
    const char *text = getenv("CUT");
    unsigned last;
    if (text == NULL || sscanf(text, "%u", &last) != 1) _exit(2);
    step++;
    if (step == last) {
        if (path[0] != 0 && truncate(path, kept_bytes + (put_bytes - kept_bytes) / 2) != 0) _exit(2);
        _exit(3);  /* what the program has in its own buffers is gone */
    }
    printf("  step %u: ", step);
}

static FILE *fopen_failing(const char *name, const char *mode) {
    if (mode[0] == 'w') {
        begin_step();
        printf("make %s\n", name);
        snprintf(path, sizeof path, "%s", name);
    }
    return fopen(name, mode);
}

static size_t fwrite_failing(const void *bytes, size_t width, size_t n, FILE *f) {
    begin_step();
    printf("put %d bytes\n", (int)(width * n));
    size_t done = fwrite(bytes, width, n, f);
    fflush(f);
    put_bytes += (long)(width * done);
    return done;
}

static int open_failing(const char *name, int flags, ...) {
    return folder = open(name, flags);
}

static int fsync_failing(int f) {
    begin_step();
    if (f == folder) {
        printf("sync the folder\n");
    } else {
        printf("sync %d bytes\n", (int)put_bytes);
        kept_bytes = put_bytes;
    }
    return fsync(f);
}

static int rename_failing(const char *from, const char *to) {
    begin_step();
    printf("rename %s to %s\n", from, to);
    snprintf(path, sizeof path, "%s", to);
    return rename(from, to);
}

#define fopen fopen_failing
#define fwrite fwrite_failing
#define open open_failing
#define fsync fsync_failing
#define rename rename_failing
#include "../examples/update.c"
