/* examples/board.c, saying aloud when it puts a file or a folder on the medium, and when it renames the store. */
#define _POSIX_C_SOURCE 200809L
#include <fcntl.h>
#include <stdio.h>
#include <unistd.h>

static char path[256];
static int folder = -1;

static int open_aloud(const char *name, int flags, ...) {
    int f = open(name, flags);
    if ((flags & O_DIRECTORY) != 0) {
        snprintf(path, sizeof path, "%s", name);
        folder = f;
    }
    return f;
}

/* Says how many bytes of a file have been written, since what is still in the program's own buffer is not synced. */
static int fsync_aloud(int f) {
    if (f == folder) printf("  sync %s\n", path);
    else printf("  sync %d bytes\n", (int)lseek(f, 0, SEEK_CUR));
    folder = -1;  /* another file may get its number */
    return fsync(f);
}

static int rename_aloud(const char *from, const char *to) {
    printf("  rename %s to %s\n", from, to);
    return rename(from, to);
}

#define open open_aloud
#define fsync fsync_aloud
#define rename rename_aloud
#include "../examples/board.c"
