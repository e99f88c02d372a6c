#include "areas.h"

#include <stdio.h>
#include <stdlib.h>
#include <string.h>
#include <sys/mman.h>

enum { PAGE = 4096, GUARDS = 64 };

void fail(const char *what)
{
    fprintf(stderr, "finding: %s\n", what);
    abort();
}

Pages pages(size_t room)
{
    Pages p;
    p.room = (room + GUARDS + PAGE - 1) / PAGE * PAGE;
    p.base = mmap(NULL, p.room + 2 * PAGE, PROT_NONE, MAP_PRIVATE | MAP_ANONYMOUS, -1, 0);
    if (p.base == MAP_FAILED) fail("no memory");
    p.base += PAGE;
    if (mprotect(p.base, p.room, PROT_READ | PROT_WRITE) != 0) fail("no pages");
    return p;
}

Area lend(Pages p, size_t length, int at_end)
{
    Area a = {p.base, p.base + length, length};
    if (at_end) {
        a.at = p.base + p.room - length;
        a.guards = a.at - GUARDS;
    }
    memset(a.guards, GUARD, GUARDS);
    memset(a.at, GUARD, length);
    return a;
}

Area lend_copy(Pages p, const uint8_t *bytes, size_t length, int at_end)
{
    Area a = lend(p, length, at_end);
    if (length > 0) memcpy(a.at, bytes, length);
    return a;
}

void guarded(Area a)
{
    for (int i = 0; i < GUARDS; i++)
        if (a.guards[i] != GUARD) fail("a byte outside the area was written");
}

void unchanged(Area a, const uint8_t *bytes)
{
    guarded(a);
    if (a.length > 0 && memcmp(a.at, bytes, a.length) != 0) fail("an area that is only read was written");
}

void holds_output(Area a, const uint8_t *bytes, size_t length)
{
    guarded(a);
    if (length > a.length) fail("an output longer than its area");
    if (length > 0 && memcmp(a.at, bytes, length) != 0) fail("another output");
    for (size_t i = length; i < a.length; i++)
        if (a.at[i] != GUARD) fail("a byte after the output was written");
}
