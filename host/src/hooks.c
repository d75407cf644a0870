/* What the compiler calls before each access, by -fsanitize=thread: these stand in the place of the sanitizer's library, which is not linked. */
#include "coverage.h"
#include "memory.h"
#include "options.h"
#include "run.h"
#include "stacks.h"
#include <stddef.h>
#define PUBLIC __attribute__((visibility("default")))
#define PLACE ((uintptr_t)__builtin_return_address(0))

/* Volatile accesses are those of flags that handlers and tasks share on purpose: they are points, and race only where that is asked. */
#define ACCESSES(n) \
    PUBLIC void __tsan_read##n(void *at) { memory_touch((uintptr_t)at, n, false, false, PLACE); } \
    PUBLIC void __tsan_write##n(void *at) { memory_touch((uintptr_t)at, n, true, false, PLACE); } \
    PUBLIC void __tsan_unaligned_read##n(void *at) { memory_touch((uintptr_t)at, n, false, false, PLACE); } \
    PUBLIC void __tsan_unaligned_write##n(void *at) { memory_touch((uintptr_t)at, n, true, false, PLACE); } \
    PUBLIC void __tsan_read_write##n(void *at) { memory_touch((uintptr_t)at, n, false, false, PLACE), memory_touch((uintptr_t)at, n, true, false, PLACE); } \
    PUBLIC void __tsan_volatile_read##n(void *at) { memory_volatile((uintptr_t)at, n, false, PLACE); } \
    PUBLIC void __tsan_volatile_write##n(void *at) { memory_volatile((uintptr_t)at, n, true, PLACE); } \
    PUBLIC void __tsan_unaligned_volatile_read##n(void *at) { memory_volatile((uintptr_t)at, n, false, PLACE); } \
    PUBLIC void __tsan_unaligned_volatile_write##n(void *at) { memory_volatile((uintptr_t)at, n, true, PLACE); }
ACCESSES(1)
ACCESSES(2)
ACCESSES(4)
ACCESSES(8)
ACCESSES(16)
PUBLIC void __tsan_read_range(void *at, unsigned long size) { memory_touch((uintptr_t)at, (unsigned)size, false, false, PLACE); }
PUBLIC void __tsan_write_range(void *at, unsigned long size) { memory_touch((uintptr_t)at, (unsigned)size, true, false, PLACE); }
PUBLIC void __tsan_init(void) { instrumented = true; }
PUBLIC void __cyg_profile_func_enter(void *function, void *caller) {
    (void)caller;
    coverage_function((uintptr_t)function);
    stacks_enter((uintptr_t)__builtin_frame_address(0));
}
PUBLIC void __cyg_profile_func_exit(void *function, void *caller) { (void)function, (void)caller; }
PUBLIC void __tsan_func_entry(void *place) { (void)place; }
PUBLIC void __tsan_func_exit(void) { }

/* --- C11 atomics --- */

static void touch(const volatile void *at, unsigned size, enum atomic kind, int order, uintptr_t place) {
    memory_atomic((uintptr_t)at, size, kind, order, place);
}
#define CHANGE(n, t, name, expression) \
    PUBLIC t __tsan_atomic##n##_##name(volatile t *at, t value, int order) { \
        touch(at, n / 8, CHANGE, order, PLACE); \
        t old = *at; \
        *at = (t)(expression); \
        return old; \
    }
#define ATOMICS(n, t) \
    PUBLIC t __tsan_atomic##n##_load(const volatile t *at, int order) { touch(at, n / 8, LOAD, order, PLACE); return *at; } \
    PUBLIC void __tsan_atomic##n##_store(volatile t *at, t value, int order) { touch(at, n / 8, STORE, order, PLACE); *at = value; } \
    CHANGE(n, t, exchange, value) \
    CHANGE(n, t, fetch_add, old + value) \
    CHANGE(n, t, fetch_sub, old - value) \
    CHANGE(n, t, fetch_and, old & value) \
    CHANGE(n, t, fetch_or, old | value) \
    CHANGE(n, t, fetch_xor, old ^ value) \
    CHANGE(n, t, fetch_nand, ~(old & value)) \
    PUBLIC int __tsan_atomic##n##_compare_exchange_strong(volatile t *at, t *wanted, t value, int order, int failed) { \
        (void)failed; \
        touch(at, n / 8, CHANGE, order, PLACE); \
        if (*at == *wanted) { *at = value; return 1; } \
        *wanted = *at; \
        return 0; \
    } \
    PUBLIC int __tsan_atomic##n##_compare_exchange_weak(volatile t *at, t *wanted, t value, int order, int failed) { \
        return __tsan_atomic##n##_compare_exchange_strong(at, wanted, value, order, failed); \
    } \
    PUBLIC t __tsan_atomic##n##_compare_exchange_val(volatile t *at, t wanted, t value, int order, int failed) { \
        __tsan_atomic##n##_compare_exchange_strong(at, &wanted, value, order, failed); \
        return wanted; \
    }
ATOMICS(8, uint8_t)
ATOMICS(16, uint16_t)
ATOMICS(32, uint32_t)
ATOMICS(64, uint64_t)
PUBLIC void __tsan_atomic_thread_fence(int order) { memory_fence(order); }
PUBLIC void __tsan_atomic_signal_fence(int order) { (void)order; }
