// What the library asks of a C library: the heap alone.
#include "heap.h"
