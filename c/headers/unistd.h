/* See stdint.h. */
int close(int);
int fsync(int);
long lseek(int, long, int);
int truncate(const char *, long);
void _exit(int) __attribute__((noreturn));
#define SEEK_CUR 1
