/* The ways to choose, each to its end: a status. */
#ifndef SEARCHES_H
#define SEARCHES_H
int play_seeds(void);
int play_orders(void);
int play_places(void);
int play_file(void);
#endif
