/* The two functions of the C library that the compiler calls in libnugwier.a: the shared library, which is linked with
 * no C library, has its own. They are assembly, since the compiler would make a loop a call of the function itself. */
#include <stddef.h>

void *memcpy(void *to, const void *from, size_t count)
{
    void *start = to;
    __asm__ volatile("rep movsb" : "+D"(to), "+S"(from), "+c"(count) : : "memory");
    return start;
}

void *memset(void *to, int byte, size_t count)
{
    void *start = to;
    __asm__ volatile("rep stosb" : "+D"(to), "+c"(count) : "a"(byte) : "memory");
    return start;
}
