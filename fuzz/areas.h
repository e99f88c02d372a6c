/* Areas to lend to the library, whose own code is not watched: each touches a page without access with its start or its end, and
 * has guard bytes on the other side. A read or a write past one end faults, a write past the other is seen. */
#include <stddef.h>
#include <stdint.h>

enum { GUARD = 0xA5 };

/* `room` bytes between two pages without access. */
typedef struct { uint8_t *base; size_t room; } Pages;

/* What is lent of them, and the guard bytes. */
typedef struct { uint8_t *at, *guards; size_t length; } Area;

/* Says what was found, and ends the program. */
void fail(const char *what);

Pages pages(size_t room);

/* An area filled with guard bytes, or with a copy. */
Area lend(Pages p, size_t length, int at_end);
Area lend_copy(Pages p, const uint8_t *bytes, size_t length, int at_end);

/* No byte beside the area was written; and the area, which is only read, is as it was. */
void guarded(Area a);
void unchanged(Area a, const uint8_t *bytes);

/* The area holds `length` of these bytes, and is as it was after them. */
void holds_output(Area a, const uint8_t *bytes, size_t length);
