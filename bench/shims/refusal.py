"""Runs a program with one of its allocations refused.

gcc builds a small library that stands before the C library's allocation and counts the calls. Where
REFUSE names a number, the call of this number has no memory; where COUNT_TO names a file, the number
of calls is written there.
"""

import os
import subprocess
import tempfile

SOURCE = r"""
#include <errno.h>
#include <fcntl.h>
#include <stdlib.h>
#include <unistd.h>

extern void *__libc_malloc(size_t);
extern void *__libc_calloc(size_t, size_t);
extern void *__libc_realloc(void *, size_t);
extern void *__libc_memalign(size_t, size_t);

static unsigned long calls, refused;
static int counted = -1;

__attribute__((constructor)) static void begin(void) {
    const char *number = getenv("REFUSE"), *path = getenv("COUNT_TO");
    refused = number ? strtoul(number, 0, 10) : 0;
    counted = path ? open(path, O_WRONLY | O_CREAT, 0600) : -1;
    calls = 0;
}

static int is_refused(void) {
    calls++;
    if (counted >= 0 && pwrite(counted, &calls, sizeof calls, 0) < 0)
        _exit(99);
    if (calls == refused)
        errno = ENOMEM;
    return calls == refused;
}

void *malloc(size_t size) { return is_refused() ? 0 : __libc_malloc(size); }
void *calloc(size_t count, size_t size) { return is_refused() ? 0 : __libc_calloc(count, size); }
void *realloc(void *old, size_t size) { return is_refused() ? 0 : __libc_realloc(old, size); }
void *aligned_alloc(size_t align, size_t size) { return is_refused() ? 0 : __libc_memalign(align, size); }

int posix_memalign(void **place, size_t align, size_t size) {
    void *made = aligned_alloc(align, size);
    if (!made)
        return ENOMEM;
    *place = made;
    return 0;
}
"""


class Refusal:
    """The library, built in a folder of its own for as long as the value is used."""

    def __init__(self):
        self.folder = tempfile.TemporaryDirectory()
        self.library = os.path.join(self.folder.name, "refusal.so")
        source = os.path.join(self.folder.name, "refusal.c")
        with open(source, "w") as file:
            file.write(SOURCE)
        subprocess.run(["gcc", "-O1", "-fno-builtin", "-shared", "-fPIC", "-o", self.library, source], check=True)

    def options(self, **more):
        return {"env": {**os.environ, "LD_PRELOAD": self.library, **more}}

    def allocations(self, call):
        """How many allocations a run makes; `call` runs it with the options that it is given."""
        path = os.path.join(self.folder.name, "count")
        if os.path.exists(path):
            os.remove(path)
        call(self.options(COUNT_TO=path))
        with open(path, "rb") as file:
            return int.from_bytes(file.read(), "little")

    def refusing(self, number):
        """The options of a run whose allocation of this number is refused."""
        return self.options(REFUSE=str(number))
