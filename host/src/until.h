/* --until: a place of a replayed order at which a debugger may look on. */
#ifndef UNTIL_H
#define UNTIL_H
void stop_before(const char *path, long line, int action); /* all stand before what they do next */
#endif
