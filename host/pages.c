#define _DEFAULT_SOURCE
#include "pages.h"

#include <string.h>
#include <sys/mman.h>
#include <unistd.h>

#include "fail.h"

/* What the neighbours of a lent part hold. */
#define NEIGHBOUR 0x5a

static uint8_t *map(size_t size)
{
    void *at = mmap(NULL, size, PROT_READ | PROT_WRITE, MAP_PRIVATE | MAP_ANONYMOUS, -1, 0);
    if (at == MAP_FAILED) {
        fail("there is no memory for %zu bytes", size);
    }
    return at;
}

static void forbid(uint8_t *page, size_t size)
{
    if (mprotect(page, size, PROT_NONE) != 0) {
        fail("a page could not be forbidden");
    }
}

struct pages pages_make(size_t most)
{
    size_t page = (size_t)sysconf(_SC_PAGESIZE);
    struct pages pages;
    pages.size = (most + page - 1) / page * page;
    pages.start = map(page + pages.size + page) + page;
    pages.copy = map(pages.size);
    pages.from = 0;
    pages.len = 0;
    forbid(pages.start - page, page);
    forbid(pages.start + pages.size, page);
    memset(pages.start, NEIGHBOUR, pages.size);
    memset(pages.copy, NEIGHBOUR, pages.size);
    return pages;
}

uint8_t *pages_lend(struct pages *pages, enum place place, const uint8_t *bytes, size_t len)
{
    if (len > pages->size) {
        fail("%zu bytes are more than the pages hold", len);
    }
    pages->from = place == BEGINS ? 0 : pages->size - len;
    pages->len = len;
    uint8_t *lent = pages->start + pages->from;
    memcpy(lent, bytes, len);
    pages_expect(pages, bytes);
    return len == 0 && place == BEGINS ? NULL : lent;
}

void pages_expect(struct pages *pages, const uint8_t *bytes)
{
    memcpy(pages->copy + pages->from, bytes, pages->len);
}

int pages_hold(const struct pages *pages, ptrdiff_t *where)
{
    if (memcmp(pages->start, pages->copy, pages->size) == 0) {
        return 1;
    }
    size_t i = 0;
    while (pages->start[i] == pages->copy[i]) {
        i++;
    }
    *where = (ptrdiff_t)i - (ptrdiff_t)pages->from;
    return 0;
}

void pages_return(struct pages *pages)
{
    memset(pages->start + pages->from, NEIGHBOUR, pages->len);
    memset(pages->copy + pages->from, NEIGHBOUR, pages->len);
}
