/* What stands in the place of realloc where a test wants a machine with little memory: compiled with -Drealloc=little_memory. */
#undef realloc
#include <stdlib.h>

void *little_memory(void *memory, size_t bytes);

void *little_memory(void *memory, size_t bytes)
{
    return bytes > 1000000 ? NULL : realloc(memory, bytes);
}
