/*
 * Bytes lent to a call from pages of their own. The page in front of these and the page
 * behind them may not be touched.
 */
#ifndef PAGES_H
#define PAGES_H

#include <stddef.h>
#include <stdint.h>

/*
 * Where a lent part lies: it begins right behind the page in front, or ends exactly at the
 * page behind.
 */
enum place { BEGINS, ENDS };

struct pages {
    uint8_t *start;
    size_t size;
    uint8_t *copy;    /* what the pages must hold */
    size_t from, len; /* the lent part */
};

/* Pages for parts of up to so many bytes. */
struct pages pages_make(size_t most);

/*
 * Lends these bytes at the place. A part of no bytes is lent as null where it would begin,
 * and where it would end as the page that may not be touched: a call must read or write
 * neither.
 */
uint8_t *pages_lend(struct pages *pages, enum place place, const uint8_t *bytes, size_t len);

/* The lent part must now hold these bytes. */
void pages_expect(struct pages *pages, const uint8_t *bytes);

/*
 * Whether the pages hold what they must, all over: the lent part and its neighbours. If
 * not, `where` is the first byte that differs, counted from the beginning of the part.
 */
int pages_hold(const struct pages *pages, ptrdiff_t *where);

/* Takes the part back, and lays neighbours where it was. */
void pages_return(struct pages *pages);

#endif
