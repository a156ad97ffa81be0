// The names of the C library that the library asks for, in its place while that is linked.
void malloc(void) {}
void realloc(void) {}
void free(void) {}
void memcpy(void) {}
void memmove(void) {}
void memset(void) {}
