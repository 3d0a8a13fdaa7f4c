/* The C library's requests for memory. They are counted, and the one whose number REFUSED_REQUEST has is refused. When
   the program ends, the file that REQUESTS names has their count, and the one that REQUESTED_BYTES names has the sum of
   their bytes. */

extern void *__libc_malloc(unsigned long size);
extern void *__libc_calloc(unsigned long count, unsigned long size);
extern void *__libc_realloc(void *block, unsigned long size);
extern void *__libc_memalign(unsigned long alignment, unsigned long size);
extern char *getenv(const char *name);
extern int atoi(const char *text);
extern int creat(const char *path, unsigned mode);
extern int dprintf(int file, const char *format, ...);
extern long syscall(long number, ...);
extern int *__errno_location(void);

/* The call of Linux on x86-64 that ends a process with all of its threads. */
static const long exit_group = 231;

static const int no_memory = 12;

static long requests, bytes;

static int is_refused(unsigned long size)
{
    const char *which = getenv("REFUSED_REQUEST");
    long request = __atomic_add_fetch(&requests, 1, __ATOMIC_SEQ_CST);
    __atomic_add_fetch(&bytes, size, __ATOMIC_SEQ_CST);
    if (!which || request != atoi(which))
        return 0;
    *__errno_location() = no_memory;
    return 1;
}

void *malloc(unsigned long size)
{
    return is_refused(size) ? 0 : __libc_malloc(size);
}

void *calloc(unsigned long count, unsigned long size)
{
    return is_refused(count * size) ? 0 : __libc_calloc(count, size);
}

void *realloc(void *block, unsigned long size)
{
    return is_refused(size) ? 0 : __libc_realloc(block, size);
}

void *memalign(unsigned long alignment, unsigned long size)
{
    return is_refused(size) ? 0 : __libc_memalign(alignment, size);
}

void *aligned_alloc(unsigned long alignment, unsigned long size)
{
    return memalign(alignment, size);
}

int posix_memalign(void **block, unsigned long alignment, unsigned long size)
{
    *block = memalign(alignment, size);
    return *block ? 0 : no_memory;
}

static void tell(const char *name, long number)
{
    const char *path = getenv(name);
    if (path)
        dprintf(creat(path, 0600), "%ld\n", number);
}

/* A program with threads ends by this, and no destructor runs. */
void _exit(int status)
{
    long found = requests, asked = bytes;
    tell("REQUESTS", found);
    tell("REQUESTED_BYTES", asked);
    for (;;)
        syscall(exit_group, status);
}
