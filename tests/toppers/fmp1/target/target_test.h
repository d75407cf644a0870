#define CPUEXC1	4
