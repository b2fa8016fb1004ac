/* Preloaded into a program: refuses it one allocation, that of the number in REFUSED (counted from 1), and tells so by
   one byte to the file descriptor in TELL: `-` where a block was to be cut to fewer bytes, else `x`. Threads are counted
   together. */

typedef unsigned long size;

extern void *__libc_malloc(size bytes);
extern void *__libc_realloc(void *old, size bytes);
extern size malloc_usable_size(void *block);
extern char *getenv(const char *name);
extern int atoi(const char *word);
extern long write(int file, const void *bytes, size count);

static int made;

static int is_refused(const char *what)
{
    if (__atomic_add_fetch(&made, 1, __ATOMIC_SEQ_CST) != atoi(getenv("REFUSED")))
        return 0;
    write(atoi(getenv("TELL")), what, 1);
    return 1;
}

void *malloc(size bytes)
{
    return is_refused("x") ? 0 : __libc_malloc(bytes);
}

void *realloc(void *old, size bytes)
{
    int is_cut = old && bytes < malloc_usable_size(old);
    return is_refused(is_cut ? "-" : "x") ? 0 : __libc_realloc(old, bytes);
}
