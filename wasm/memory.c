/* What the compiled module asks of a C library, which there is none of in a browser. Nothing is proved of it. */
void *memcpy(void *to, const void *from, unsigned long length);
void *memmove(void *to, const void *from, unsigned long length);
void *memset(void *to, int value, unsigned long length);

void *memcpy(void *to, const void *from, unsigned long length)
{
    return memmove(to, from, length);
}

void *memmove(void *to, const void *from, unsigned long length)
{
    unsigned char *destination = to;
    const unsigned char *source = from;
    if ((unsigned long)to <= (unsigned long)from) {
        for (unsigned long at = 0; at < length; at++)
            destination[at] = source[at];
    } else {
        while (length-- > 0)
            destination[length] = source[length];
    }
    return to;
}

void *memset(void *to, int value, unsigned long length)
{
    unsigned char *destination = to;
    for (unsigned long at = 0; at < length; at++)
        destination[at] = (unsigned char)value;
    return to;
}
