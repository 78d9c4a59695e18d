/* Refuses growths of the program that it is loaded into before its libraries. Growths are counted from 1:
     REFUSE_AT=N       refuses the N-th
     REFUSE_FROM=N     refuses the N-th and all after it
     REFUSE_COUNT=FILE writes how many there were into FILE, at the end
   The program takes its memory by `malloc` and `realloc` alone, each call of which is a growth. */
#define _GNU_SOURCE
#include <dlfcn.h>
#include <errno.h>
#include <fcntl.h>
#include <stdio.h>
#include <stdlib.h>
#include <unistd.h>

static long growths, at, from;
static void *(*next_malloc)(size_t);
static void *(*next_realloc)(void *, size_t);

static long number(const char *name) {
    const char *text = getenv(name);
    return text ? atol(text) : 0;
}

static void begin(void) {
    at = number("REFUSE_AT");
    from = number("REFUSE_FROM");
    next_malloc = dlsym(RTLD_NEXT, "malloc");
    next_realloc = dlsym(RTLD_NEXT, "realloc");
}

static int is_refused(void) {
    if (!next_realloc) begin();
    growths++;
    if (growths != at && (from == 0 || growths < from)) return 0;
    errno = ENOMEM;
    return 1;
}

void *malloc(size_t size) { return is_refused() ? NULL : next_malloc(size); }

void *realloc(void *block, size_t size) { return is_refused() ? NULL : next_realloc(block, size); }

__attribute__((destructor)) static void tell(void) {
    const char *name = getenv("REFUSE_COUNT");
    char text[32];
    int file = name ? open(name, O_WRONLY | O_CREAT | O_TRUNC, 0600) : -1;
    if (file < 0) return;
    (void)!write(file, text, snprintf(text, sizeof text, "%ld\n", growths));
    close(file);
}
