#ifndef UNISTD_H
#define UNISTD_H
#include <stddef.h>
long read(int, void *, size_t);
long write(int, const void *, size_t);
#endif
