/* What the tests share: counting, and memory that ends where no memory follows. */
#ifndef CHECK_H
#define CHECK_H

#include "rlp.h"

/* Counts a test as passed or failed, and prints those that failed. */
#define CHECK(holds) check((holds), #holds, __FILE__, __LINE__)
bool check(bool holds, const char *what, const char *file, int line);

/* Prints `N passed, M failed`, and answers the status of the program. */
int report(void);

/* Memory for arguments. A byte behind an argument can't be read or written without a signal. */
enum place { INPUT, ITEMS, OUTPUT, PLACES };
void *room_for(enum place place, size_t size);
uint8_t *copied(enum place place, const uint8_t *bytes, size_t len);

/* Elements for items, and this number of elements behind them. Those behind are marked, and tell whether they still are. */
rlp_item *items_for(size_t count, size_t behind);
bool are_marked(const rlp_item *items, size_t behind);

/* Whether two arrays of items are equal. */
bool same_items(const rlp_item *one, const rlp_item *other, size_t count);

/* A source of random numbers. */
uint64_t draw(uint64_t *source);
size_t draw_below(uint64_t *source, size_t limit);

#endif
