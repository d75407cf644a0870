#include <kernel.h>
#define SECOND_PRIORITY	(TMIN_TPRI + 1)
#define TWICE(x)	((x) * 2)

enum { PRIO_FIRST = TMIN_TPRI, PRIO_SECOND = SECOND_PRIORITY };

typedef enum priority {
	PRIO_SEVENTH = 7,
	PRIO_EIGHTH,		/* one more */
	PRIO_LAST = PRIO_EIGHTH * 2,
} PRIORITY;

enum units { ZERO_UNITS, ONE_UNIT } units;
enum { MINUS_TWO = -2, NINE = 9, TEN };

struct object {
	int	number;
	enum { OF_FIRST, OF_MEMBER = 12 } kind;
	struct { enum { OF_DEPTH } depth; } inner;
};
extern enum units given(enum units wanted);

enum { SHADOWED = 5 };
static inline int
inside(int number)
{
	enum { SHADOWED = 6, OF_FUNCTION };
	return(number + SHADOWED);
}
enum units
taken(enum units wanted)
{
	enum { SHADOWED = 8 };
	return(wanted);
}
