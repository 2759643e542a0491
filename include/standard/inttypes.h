/* The integers of fixed sizes; a program prints nothing. */
#include <stdint.h>
