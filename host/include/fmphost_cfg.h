/* What the generated kernel_cfg.c tells the runner of a configuration. Objects stand kind by kind, and in a kind by their numbers. */
#ifndef FMPHOST_CFG_H
#define FMPHOST_CFG_H
#include <stddef.h>
#include <stdint.h>

enum { FMPHOST_TASK, FMPHOST_SEM, FMPHOST_FLG, FMPHOST_DTQ, FMPHOST_MPF, FMPHOST_CYC, FMPHOST_ALM, FMPHOST_SPN, FMPHOST_KINDS };

struct fmphost_object {
    const char *name;
    int kind, number;
    void (*body)(intptr_t exinf); /* of a task or a handler */
    intptr_t exinf;
    int blocks;         /* of a pool */
    size_t stack;       /* of a task: what its configuration gives, or 0 where that is not known */
    size_t size;        /* from one block to the next */
    size_t length;      /* of a block */
    unsigned char *memory;
    int counts;         /* a cyclic handler that counts ticks from boot */
    int processor;      /* on which a task or handler begins */
};

extern const struct fmphost_object fmphost_objects[];
extern const int fmphost_object_count;
extern const int fmphost_processors;
extern const int fmphost_master;          /* the processor whose ticks count for all, or 0 where each counts its own */
extern const char fmphost_configuration[]; /* the path of its text */
extern const char fmphost_version[];       /* of the fmpsim that read it, */
extern const uint64_t fmphost_listed;      /* and a hash of what that said of it */
extern const char fmphost_folder[] __attribute__((weak));  /* where the project was compiled: paths of its files are from there */
extern const char fmphost_tools[] __attribute__((weak));   /* where fmpsim's tools are, of which one writes reports */
extern const char fmphost_outside[] __attribute__((weak)); /* functions that the project calls, and whose accesses are not seen */
#endif
