// Refuses requests for memory: preloaded, it stands before the C library's own functions.
//
// REFUSE=N refuses the Nth request of the process and no other, REFUSE=N.. all from the Nth on, and
// REFUSE=size=N all from the first one for N bytes on. Each refusal writes a byte to the file whose
// number is TELL. REFUSE=0 refuses none: at its end the process writes there how many it made, and
// its status with the most memory that it had.
#include <fcntl.h>
#include <stddef.h>
#include <stdio.h>
#include <stdlib.h>
#include <string.h>
#include <unistd.h>

void *__libc_malloc(size_t size);
void *__libc_calloc(size_t count, size_t size);
void *__libc_realloc(void *old, size_t size);

static const char *wanted;
static size_t number, requests;
static int tell, from_size, all_further, refuses_all;

__attribute__((constructor)) static void read_wanted(void) {
    const char *file = getenv("TELL");
    wanted = getenv("REFUSE");
    if (wanted == NULL || file == NULL) {
        wanted = NULL;
        return;
    }
    tell = atoi(file);
    from_size = strncmp(wanted, "size=", 5) == 0;
    number = strtoul(from_size ? wanted + 5 : wanted, NULL, 10);
    all_further = from_size || strstr(wanted, "..") != NULL;
}

__attribute__((destructor)) static void tell_requests(void) {
    static char status[8192];
    if (wanted == NULL || strcmp(wanted, "0") != 0) {
        return;
    }
    int file = open("/proc/self/status", O_RDONLY);
    ssize_t len = read(file, status, sizeof status);
    if (len > 0 && dprintf(tell, "requests: %zu\n", requests) > 0) {
        ssize_t told = write(tell, status, (size_t)len);
        (void)told;
    }
    close(file);
}

static int is_refused(size_t size) {
    if (wanted == NULL) {
        return 0;
    }
    requests++;
    int is_met = from_size ? size == number : requests == number;
    refuses_all |= is_met && all_further;
    if (!is_met && !refuses_all) {
        return 0;
    }
    ssize_t told = write(tell, "r", 1);
    (void)told;
    return 1;
}

void *malloc(size_t size) { return is_refused(size) ? NULL : __libc_malloc(size); }

void *calloc(size_t count, size_t size) {
    return is_refused(count * size) ? NULL : __libc_calloc(count, size);
}

void *realloc(void *old, size_t size) { return is_refused(size) ? NULL : __libc_realloc(old, size); }
