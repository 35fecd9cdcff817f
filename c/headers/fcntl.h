/* See stdint.h. */
int open(const char *, int, ...);
#define O_RDONLY 0
#define O_DIRECTORY 0200000
