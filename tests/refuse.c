/* Refuses one allocation of the program that loads this library first: the one whose number, from 1 on, REFUSED says.
   At the end it writes to the file COUNTED how many were asked for. A program that is killed comes to no such end: the file REACHED is made
   as the allocation is refused. */
#include <fcntl.h>
#include <stdio.h>
#include <stdlib.h>
#include <sys/syscall.h>
#include <unistd.h>

extern void *__libc_malloc(size_t size);
extern void *__libc_realloc(void *block, size_t size);

static unsigned long asked;

static void reach(void) {
    const char *reached = getenv("REACHED");
    int file = reached == NULL ? -1 : open(reached, O_WRONLY | O_CREAT, 0600);
    if (file >= 0) {
        close(file);
    }
}

static int is_refused(void) {
    const char *refused = getenv("REFUSED");
    /* Threads may ask at once. */
    unsigned long number = __atomic_add_fetch(&asked, 1, __ATOMIC_SEQ_CST);
    if (refused == NULL || number != strtoul(refused, NULL, 10)) {
        return 0;
    }
    reach();
    return 1;
}

void *malloc(size_t size) {
    return is_refused() ? NULL : __libc_malloc(size);
}

void *realloc(void *block, size_t size) {
    return is_refused() ? NULL : __libc_realloc(block, size);
}

/* It asks for no memory itself. */
__attribute__((destructor)) static void tell(void) {
    const char *counted = getenv("COUNTED");
    int file = counted == NULL ? -1 : open(counted, O_WRONLY | O_CREAT | O_TRUNC, 0600);
    char text[32];
    int len = snprintf(text, sizeof text, "%lu\n", asked);
    if (file >= 0 && write(file, text, (size_t)len) == len) {
        close(file);
    }
}

/* A program may end so, and then no destructor is run. */
void _exit(int status) {
    tell();
    for (;;) {
        syscall(SYS_exit_group, status);
    }
}
