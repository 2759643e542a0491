/* A program prints nothing: checker.h has a printf that computes what it is given. This file is there for sources that are built natively too. */
#include <stddef.h>
