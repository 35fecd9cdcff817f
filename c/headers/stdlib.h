/* See stdint.h. */
void exit(int) __attribute__((noreturn));
char *getenv(const char *);
