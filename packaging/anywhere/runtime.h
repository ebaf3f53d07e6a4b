/* What the translated module asks of its surroundings: one memory. That each access lies in it is proved of the sources, as for the
 * library itself, so none is looked at. A trap can't come either; where a translation is wrong and one does, the process ends. */
#include <assert.h>
#include <stdbool.h>
#include <stddef.h>
#include <stdint.h>
#include <stdlib.h>
#include <string.h>

#if defined(__BYTE_ORDER__) && __BYTE_ORDER__ != __ORDER_LITTLE_ENDIAN__
#error "riichi_desk_portable.c wants a little-endian processor"
#endif

#if defined(__GNUC__)
#pragma GCC diagnostic ignored "-Wunused-value"
#pragma GCC diagnostic ignored "-Wunused-function"
#define LIKELY(x) __builtin_expect(!!(x), 1)
#define UNLIKELY(x) __builtin_expect(!!(x), 0)
#define OF_THREAD static __thread
#elif defined(_MSC_VER)
#include <intrin.h>
#define LIKELY(x) (x)
#define UNLIKELY(x) (x)
#define OF_THREAD static __declspec(thread)
#else
#define LIKELY(x) (x)
#define UNLIKELY(x) (x)
#define OF_THREAD static _Thread_local
#endif
#define wasm_rt_memcpy memcpy
#define WASM_RT_MEMCHECK_SIGNAL_HANDLER 1 /* wasm2c: no look at an access */
#define WASM_RT_USE_STACK_DEPTH_COUNT 0

/* Behind the module's own pages lie those for what a call is given, those for its answer, and those for the hands of a question: 2,800
 * bytes a place. */
enum { PAGE = 65536, PAGES = @pages@, PAGES_GIVEN = 4, PAGES_TOLD = 4, MOST_PLACES = 512, PAGES_LENT = MOST_PLACES * 2800 / PAGE + 1 };
enum { SPACE = (PAGES + PAGES_GIVEN + PAGES_TOLD + PAGES_LENT) * PAGE };

typedef struct { uint8_t data[SPACE]; uint32_t size; } wasm_rt_memory_t;

static void wasm_rt_allocate_memory(wasm_rt_memory_t *memory, uint32_t pages, uint32_t most) {
    (void)pages, (void)most;
    memory->size = SPACE;
}

static void wasm_rt_free_memory(wasm_rt_memory_t *memory) { (void)memory; }

#define wasm_rt_register_func_type(...) 0
#define wasm_rt_is_initialized() true

enum { WASM_RT_TRAP_OOB = 1, WASM_RT_TRAP_INT_OVERFLOW, WASM_RT_TRAP_DIV_BY_ZERO, WASM_RT_TRAP_INVALID_CONVERSION,
    WASM_RT_TRAP_UNREACHABLE, WASM_RT_TRAP_CALL_INDIRECT };

static int wasm_rt_trap(int why) {
    (void)why;
    abort();
}

