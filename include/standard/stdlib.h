/* A checker has nothing of it but NULL and size_t: it reads, and answers. This file is there for sources that are built natively too. */
#include <stddef.h>
