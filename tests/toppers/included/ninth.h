typedef struct { int member; } PAIR;
static inline int twice(int n) { return 2 * n; }
CRE_SEM(NINTH, {TA_NULL, 0, 9});
extern PAIR pairs[2];
