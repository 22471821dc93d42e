/* memory.c: the two functions of the C library that libvdp calls, for a bare machine that has none (tools/native-lib.sh). They are weak: a program's own come
 * first. No header is used. */
typedef __SIZE_TYPE__ size;

__attribute__((weak)) void *memcpy(void *to, const void *from, size count)
{
    for (size k = 0; k < count; k++)
        ((char *)to)[k] = ((const char *)from)[k];
    return to;
}

__attribute__((weak)) void *memset(void *to, int byte, size count)
{
    for (size k = 0; k < count; k++)
        ((char *)to)[k] = (char)byte;
    return to;
}
