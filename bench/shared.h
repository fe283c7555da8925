/* What bench.c and packets.c share: numbers by chance, a difference told, and time. */
#include <stddef.h>
#include <stdint.h>

enum { ROUNDS = 7 };
uint32_t chance(uint32_t below);
void differ(const char *where, size_t place);
double now(void);
double median(double *times);
extern int printf(const char *form, ...);
extern int memcmp(const void *a, const void *b, size_t n);
