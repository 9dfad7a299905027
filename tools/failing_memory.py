"""A library that is loaded in front of the C library, and answers a call of malloc and its like with no memory, or some in a row. It also
refuses threads.

It needs a C compiler (`cc`)."""
import os
import subprocess

FAILING = """
#define _GNU_SOURCE
#include <dlfcn.h>
#include <errno.h>
#include <pthread.h>
#include <stdio.h>
#include <stdlib.h>
#include <unistd.h>
static long calls, failing, last, refused, threads;
__attribute__((constructor)) static void ask(void) {
    failing = getenv("FAILING") ? atol(getenv("FAILING")) : 0;
    last = failing + (getenv("IN_A_ROW") ? atol(getenv("IN_A_ROW")) : 1) - 1;
    refused = getenv("REFUSED") ? atol(getenv("REFUSED")) : 0;
}
static int fails(void) {
    long call = __atomic_add_fetch(&calls, 1, __ATOMIC_SEQ_CST);
    return failing > 0 && failing <= call && call <= last ? (errno = ENOMEM) : 0;
}
#define NEXT(name) static __typeof__(&name) next; if (!next) next = (__typeof__(&name))dlsym(RTLD_NEXT, #name)
void *malloc(size_t n) { NEXT(malloc); return fails() ? 0 : next(n); }
void *realloc(void *p, size_t n) { NEXT(realloc); return fails() ? 0 : next(p, n); }
void *aligned_alloc(size_t a, size_t n) { NEXT(aligned_alloc); return fails() ? 0 : next(a, n); }
int posix_memalign(void **p, size_t a, size_t n) { NEXT(posix_memalign); return fails() ? ENOMEM : next(p, a, n); }
int pthread_create(pthread_t *t, const pthread_attr_t *a, void *(*f)(void *), void *x) {
    NEXT(pthread_create);
    long thread = __atomic_fetch_add(&threads, 1, __ATOMIC_SEQ_CST);
    return refused >> thread & 1 ? EAGAIN : next(t, a, f, x);
}
__attribute__((destructor)) static void tell(void) { if (getenv("FAILING")) fprintf(stderr, "calls %ld\\n", calls); }
/* A process that ends so runs no destructor. */
void _exit(int status) { NEXT(_exit); tell(); next(status); __builtin_unreachable(); }
"""


def library_in(folder):
    """The library, built there."""
    library = os.path.join(folder, "failing.so")
    compiled = ["cc", "-shared", "-fPIC", "-x", "c", "-o", library, "-", "-ldl"]
    subprocess.run(compiled, input=FAILING.encode(), check=True)
    return library


def failing(library, number, in_a_row=1, refused=0):
    """The environment in which the call of this number fails, counted from 1, and those behind it that are told; 0 for none. At its end
    the process tells `calls N` on standard error. The thread that is made as the n-th, from 0, is refused where bit n of `refused` is 1."""
    more = {"FAILING": number, "IN_A_ROW": in_a_row, "REFUSED": refused}
    return {**os.environ, "LD_PRELOAD": library, **{name: str(value) for name, value in more.items()}} if library else dict(os.environ)


def calls_in(said):
    """How many calls there were, by what was told."""
    words = said.decode(errors="replace").rpartition("calls ")[2].split()
    return int(words[0]) if words else 0
