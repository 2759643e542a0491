/* A checker has memcmp, memcpy and memset by checker.h; this file is there for sources that are built natively too. */
#include <stddef.h>
