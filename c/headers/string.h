/* See stdint.h. */
#include <stddef.h>
void *memcpy(void *, const void *, size_t);
void *memmove(void *, const void *, size_t);
void *memset(void *, int, size_t);
int memcmp(const void *, const void *, size_t);
size_t strspn(const char *, const char *);
int strcmp(const char *, const char *);
char *strchr(const char *, int);
char *strrchr(const char *, int);
