/* Who chooses what happens next, but for a search: a seed, a path that was gone before, or a file. */
#ifndef CHOICES_H
#define CHOICES_H
#include "run.h"

void seed_begin(uint64_t seed);
chooser by_seed;
struct path { long length; unsigned char action[1 << 15]; };
extern struct path path;
void path_of_outcome(void); /* the turns of the last run */
chooser by_path;
void replay_open(void);     /* the file that --replay names; what stands in its first line is asked for, too */
chooser by_replay;
bool replay_has_points(void);
void replay_compare(bool found); /* after the run: gives up where the file has another program's turns, or more where nothing was found */
#endif
