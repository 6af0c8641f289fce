/*
 * A library to be preloaded (LD_PRELOAD), which refuses allocations of a program. It writes the line "refused" to standard error for
 * each. Two variables of the environment say which:
 *
 *   REFUSED_ALLOCATION=N    the one with this number, counted from 1
 *   OF_ANSWERS=refused      one in each answer, which is what the program writes to standard output up to the end of a line: the first
 *                           allocation in the second answer (none in the first), and the next one in each answer after it; after an
 *                           answer that has none with that number, the first one again
 *   OF_ANSWERS=counted      none; for each answer a line says how many allocations it took
 */
#include <errno.h>
#include <stdatomic.h>
#include <stddef.h>
#include <stdio.h>
#include <stdlib.h>
#include <string.h>
#include <sys/syscall.h>
#include <unistd.h>

extern void *__libc_malloc(size_t size);
extern void *__libc_calloc(size_t count, size_t size);
extern void *__libc_realloc(void *old, size_t size);
extern void *__libc_memalign(size_t alignment, size_t size);

static atomic_long refused;
static atomic_long made;
static int refuses_in_answers;
static int counts_in_answers;

__attribute__((constructor)) static void read_words(void) {
    const char *number = getenv("REFUSED_ALLOCATION");
    const char *of_answers = getenv("OF_ANSWERS");
    refused = number ? atol(number) : 0;
    refuses_in_answers = of_answers && strcmp(of_answers, "refused") == 0;
    counts_in_answers = of_answers && strcmp(of_answers, "counted") == 0;
    made = 0;
}

/* Says a line on standard error. */
static void say(const char *line) {
    size_t length = strlen(line);
    if (syscall(SYS_write, STDERR_FILENO, line, length) != (long)length) {
        abort();
    }
}

/* Counts an allocation, and tells whether it is the one to be refused. */
static int is_refused(void) {
    if (++made != refused) {
        return 0;
    }
    errno = ENOMEM;
    say("refused\n");
    return 1;
}

/* Says how many allocations an answer took, or chooses the one to be refused in the next one. */
static void end_answer(void) {
    if (counts_in_answers) {
        char line[32];
        snprintf(line, sizeof line, "%ld\n", (long)made);
        say(line);
    }
    if (refuses_in_answers) {
        refused = made < refused ? 1 : refused + 1;
    }
    made = 0;
}

ssize_t write(int to, const void *bytes, size_t length) {
    ssize_t written = syscall(SYS_write, to, bytes, length);
    int is_of_answers = refuses_in_answers || counts_in_answers;
    if (is_of_answers && to == STDOUT_FILENO && written > 0 && ((const char *)bytes)[written - 1] == '\n') {
        end_answer();
    }
    return written;
}

void *malloc(size_t size) {
    return is_refused() ? NULL : __libc_malloc(size);
}

void *calloc(size_t count, size_t size) {
    return is_refused() ? NULL : __libc_calloc(count, size);
}

void *realloc(void *old, size_t size) {
    return is_refused() ? NULL : __libc_realloc(old, size);
}

void *aligned_alloc(size_t alignment, size_t size) {
    return is_refused() ? NULL : __libc_memalign(alignment, size);
}

int posix_memalign(void **made_at, size_t alignment, size_t size) {
    void *found = is_refused() ? NULL : __libc_memalign(alignment, size);
    if (!found) {
        return ENOMEM;
    }
    *made_at = found;
    return 0;
}
