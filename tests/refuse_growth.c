/* Loaded into a program by LD_PRELOAD, refuses growths of its memory, counted from 1 when the program starts:
   REFUSE_ONE=N the Nth alone, REFUSE_FROM=N each from the Nth on. A refusal makes the file that REFUSED names. */
#define _GNU_SOURCE
#include <dlfcn.h>
#include <fcntl.h>
#include <stdlib.h>
#include <unistd.h>

static long one, from, count;

__attribute__((constructor)) static void arm(void) {
    one = atol(getenv("REFUSE_ONE") ? getenv("REFUSE_ONE") : "0");
    from = atol(getenv("REFUSE_FROM") ? getenv("REFUSE_FROM") : "0");
}

static int is_refused(void) {
    if (!one && !from) return 0;
    count++;
    if (count != one && (!from || count < from)) return 0;
    close(open(getenv("REFUSED"), O_CREAT | O_WRONLY, 0666));
    return 1;
}

void *malloc(size_t size) {
    void *(*next)(size_t) = dlsym(RTLD_NEXT, "malloc");
    return is_refused() ? NULL : next(size);
}

void *realloc(void *old, size_t size) {
    void *(*next)(void *, size_t) = dlsym(RTLD_NEXT, "realloc");
    return is_refused() ? NULL : next(old, size);
}
