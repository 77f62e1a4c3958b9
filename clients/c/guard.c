/*
 * A stack that is too small, with one guard page below it: a call ends in a fault at that page, and writes nothing beyond it, since a frame
 * touches its pages in order. For Linux; run by tools/clients.
 */
#define _GNU_SOURCE
#include <signal.h>
#include <stdio.h>
#include <string.h>
#include <sys/mman.h>
#include <sys/wait.h>
#include <ucontext.h>
#include <unistd.h>

#include "herdbook.h"

enum { N = 4, WORDS = HERD_TABLE_WORDS(N), PAGE = 4096, BELOW = 256 * PAGE, STEP = 2 * PAGE, MOST = 40 * PAGE, CALLS = 6, FILL = 0xa5 };
enum { DONE, REFUSED, WRITTEN };

static uint64_t table[WORDS];
static herd_delta delta;
static ucontext_t back, task;
static int call;
static uint64_t answer;

static void run(void)
{
    uint8_t marks[N];
    uint64_t number, values[] = {77};
    switch (call) {
    case 0: answer = herd_marks(HERDBOOK_SCHEMA, HERD_SCHEMA_WORDS, table, WORDS, marks, N, &number); break;
    case 1: answer = herd_insert(HERDBOOK_SCHEMA, HERD_SCHEMA_WORDS, table, WORDS, delta, HERD_DELTA_WORDS, 1, values, 1, &number); break;
    case 2: answer = herd_update(HERDBOOK_SCHEMA, HERD_SCHEMA_WORDS, table, WORDS, delta, HERD_DELTA_WORDS, 1, 1, 77); break;
    case 3: answer = herd_delete(HERDBOOK_SCHEMA, HERD_SCHEMA_WORDS, table, WORDS, delta, HERD_DELTA_WORDS, 1); break;
    case 4: answer = book_enter_group(table, WORDS, delta, HERD_DELTA_WORDS, 77, &number); break;
    default: answer = book_find_milking(table, WORDS, HERD_LABEL(1, 1), &number);
    }
}

/* In a process of its own: the memory below the guard page, the page, and a stack of so many bytes. */
static int on_stack_of(size_t bytes)
{
    uint8_t *memory = mmap(NULL, BELOW + PAGE + bytes, PROT_READ | PROT_WRITE, MAP_PRIVATE | MAP_ANONYMOUS, -1, 0);
    size_t at;
    if (memory == MAP_FAILED)
        return REFUSED;
    memset(memory, FILL, BELOW);
    if (mprotect(memory + BELOW, PAGE, PROT_NONE) != 0 || getcontext(&task) != 0)
        return REFUSED;
    task.uc_stack.ss_sp = memory + BELOW + PAGE;
    task.uc_stack.ss_size = bytes;
    task.uc_link = &back;
    makecontext(&task, run, 0);
    if (swapcontext(&back, &task) != 0)
        return REFUSED;
    for (at = 0; at < BELOW; at++)
        if (memory[at] != FILL)
            return WRITTEN;
    return answer == HERD_DONE ? DONE : REFUSED;
}

/* Whether the call was done; a fault is the other way that it may end. */
static int ends(size_t bytes, int *failed)
{
    int status = 0;
    pid_t child = fork();
    if (child == 0)
        _exit(on_stack_of(bytes));
    if (child < 0 || waitpid(child, &status, 0) != child)
        *failed = 1;
    if (WIFEXITED(status) && WEXITSTATUS(status) == DONE)
        return 1;
    if (!WIFSIGNALED(status) || WTERMSIG(status) != SIGSEGV) {
        printf("guard: call %d on a stack of %zu bytes: neither done nor a fault\n", call, bytes);
        *failed = 1;
    }
    return 0;
}

int main(void)
{
    herd_label group;
    int failed = 0;
    size_t bytes;
    if (herd_start(table, WORDS, 1) || book_enter_group(table, WORDS, delta, HERD_DELTA_WORDS, 1, &group))
        return 1;
    for (call = 0; call < CALLS; call++) {
        size_t faults = 0;
        for (bytes = STEP; bytes <= MOST; bytes += STEP)
            if (!ends(bytes, &failed))
                faults++;
        if (faults == 0 || !ends(MOST, &failed)) {
            printf("guard: call %d: no stack is too small, or every one is\n", call);
            failed = 1;
        }
    }
    return failed;
}
