#!/usr/bin/env python3
"""Refuses the engine each of its allocations, one in each run of a test.

    tools/refuse_memory.py crates/engine_tests/out/engine_tests_tests

The test makes each call again where it was refused memory, and asserts that the refused one changed nothing. A run in
which an allocation of the test itself or of its device is refused ends with that fault, and a run whose assertion is
not so is killed. It wants a C compiler, as cc.
"""
import os
import subprocess
import sys
import tempfile

TEST = "memory::calls_without_memory_change_nothing"
SHIM = r"""
#define _GNU_SOURCE
#include <dlfcn.h>
#include <errno.h>
#include <stdio.h>
#include <stdlib.h>
static long made;
static int is_refused(void)
{
    const char *number = getenv("REFUSED");
    made++;
    return number && made == atol(number);
}
void *malloc(size_t size)
{
    static void *(*real)(size_t);
    if (!real) real = dlsym(RTLD_NEXT, "malloc");
    if (is_refused()) { errno = ENOMEM; return 0; }
    return real(size);
}
void *realloc(void *old, size_t size)
{
    static void *(*real)(void *, size_t);
    if (!real) real = dlsym(RTLD_NEXT, "realloc");
    if (is_refused()) { errno = ENOMEM; return 0; }
    return real(old, size);
}
__attribute__((destructor)) static void tell(void)
{
    const char *path = getenv("MADE");
    FILE *file = path ? fopen(path, "w") : 0;
    if (file) { fprintf(file, "%ld", made); fclose(file); }
}
"""


def built(folder):
    source, shim = os.path.join(folder, "refuse.c"), os.path.join(folder, "refuse.so")
    with open(source, "w", encoding="ascii") as file:
        file.write(SHIM)
    subprocess.run(["cc", "-O2", "-shared", "-fPIC", "-o", shim, source, "-ldl"], check=True)
    return shim


def ended(program, shim, **more):
    """How a run of the test ends: its status and what it says."""
    run = subprocess.run(
        [program, TEST],
        env={"LD_PRELOAD": shim, **more},
        stdout=subprocess.PIPE,
        stderr=subprocess.STDOUT,
        check=False,
    )
    return run.returncode, run.stdout.decode(errors="replace")


def main():
    program = os.path.abspath(sys.argv[1])
    with tempfile.TemporaryDirectory() as folder:
        shim, count = built(folder), os.path.join(folder, "count")
        status, told = ended(program, shim, MADE=count)
        if status:
            sys.exit(f"the test fails with ample memory:\n{told}")
        with open(count, encoding="ascii") as file:
            made = int(file.read())
        good = own = 0
        for number in range(1, made + 1):
            status, told = ended(program, shim, REFUSED=str(number))
            if status == 0:
                good += 1
            elif status > 0 and "assert" not in told:
                own += 1
            else:
                sys.exit(f"allocation {number} of {made}: status {status}\n{told}")
    print(f"{made} allocations: {good} refused calls changed nothing, {own} were the test's or its device's")


if __name__ == "__main__":
    main()
