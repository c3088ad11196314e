/* Refuses one request for memory of the program that is started with it in LD_PRELOAD: the one of the number in REFUSED, counted from 1 from the first
   that its threads make once it runs. The file that NOTED names gets a line when it is refused, and one with the number of all requests at the end.

       cc -O2 -shared -fPIC -o refusing.so refusing.c */
#include <errno.h>
#include <fcntl.h>
#include <stdatomic.h>
#include <stdio.h>
#include <stdlib.h>
#include <sys/syscall.h>
#include <unistd.h>

void *__libc_malloc(size_t size);
void *__libc_realloc(void *old, size_t size);

static atomic_long made;
static long refused;
static const char *noted;

static void note(const char *word, long number) {
    char line[64];
    int length = snprintf(line, sizeof line, "%s %ld\n", word, number);
    int file = open(noted, O_WRONLY | O_CREAT | O_APPEND, 0600);
    if (file >= 0) {
        if (write(file, line, length) != length) abort();
        close(file);
    }
}

static int refuses(void) {
    if (!noted || atomic_fetch_add(&made, 1) + 1 != refused) return 0;
    note("refused", refused);
    errno = ENOMEM;
    return 1;
}

void *malloc(size_t size) { return refuses() ? NULL : __libc_malloc(size); }

void *realloc(void *old, size_t size) { return refuses() ? NULL : __libc_realloc(old, size); }

__attribute__((constructor)) static void begin(void) {
    const char *number = getenv("REFUSED");
    refused = number ? atol(number) : 0;
    noted = getenv("NOTED");
}

/* By this the program ends, which leaves out what would run at `exit`. */
void _exit(int status) {
    if (noted) note("made", atomic_load(&made));
    syscall(SYS_exit_group, status);
    __builtin_unreachable();
}
