/* Requests for threads. They are counted, and those from FIRST_REFUSED to LAST_REFUSED are refused. */

typedef int Create(void *thread, const void *attributes, void *(*start)(void *), void *argument);

extern void *dlsym(void *library, const char *name);
extern char *getenv(const char *name);
extern int atoi(const char *text);

/* The library that would be asked if this one weren't there. */
#define NEXT_LIBRARY ((void *)-1)

static const int try_again = 11;

static int requests;

int pthread_create(void *thread, const void *attributes, void *(*start)(void *), void *argument)
{
    int request = __atomic_add_fetch(&requests, 1, __ATOMIC_SEQ_CST);
    if (atoi(getenv("FIRST_REFUSED")) <= request && request <= atoi(getenv("LAST_REFUSED")))
        return try_again;
    return ((Create *)dlsym(NEXT_LIBRARY, "pthread_create"))(thread, attributes, start, argument);
}
