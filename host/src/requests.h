/* What the 77 calls are made of. */
#ifndef REQUESTS_H
#define REQUESTS_H
#include "calls.h"
#include "kernel.h"
#include "proved.h"
#include <stdio.h>
#define PLACE __builtin_return_address(0)

/* Two calls, so that what the first leaves on the stack is no part of the place before which the task stands. */
#define ask(place, number, ...) (request(place, number, (const int64_t[MOST_ARGUMENTS]){__VA_ARGS__}), reply())
void request(const void *place, enum call_number number, const int64_t *arguments);
struct context;
const char *request_text(const struct context *me); /* its call as the trace has it, with the names of objects: `wai_flg(FLAG, 3, TWF_ANDW)` */
void request_of(struct context *me, const void *place, enum call_number number, const int64_t *arguments); /* it stands before this call then */
ER reply(void);
int64_t told(void);
int block_at(ID mpfid, const void *block); /* -1 where it is none of the pool's: the kernel refuses that number */
void *block_of(ID mpfid, int block);
uint64_t serial_read(void); /* how much the serial port has given */
void stores(const void *place, void *at, size_t size);
#endif
