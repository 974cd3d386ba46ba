/* Stands in for <string.h> where the kit's compiler builds the examples. */
#include "libc.h"
