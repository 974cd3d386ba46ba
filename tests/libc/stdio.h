/* Stands in for <stdio.h> where the kit's compiler builds the examples. */
#include "libc.h"
