/* What the files of the test from C share. */
#ifndef CALLS_H
#define CALLS_H

/* Counts a check, and prints what it was if it failed. */
void check(const char *what, int good);

/* Lists with dropped pages. */
void drops_checked(void);

/* Erase counters, and the limit of a run. */
void wear_checked(void);

/* The highest counter kept at hand. */
void highest_checked(void);

/* The stored pages that a run reads. */
void pages_read_checked(void);

/* Step listings of other movers. */
void listing_checked(void);

/* How far one changed page reaches. */
void reach_checked(void);

/* The least y of an order of blocks, and the best order. */
void orders_checked(void);

/* One page unreadable: what is rebuilt, and what is lost. */
void rebuild_checked(void);

/* Intel HEX. */
void hex_checked(void);

#endif
