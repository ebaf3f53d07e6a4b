/* Memory that a call is lent: just so many bytes, with a page that may not be touched before them or behind them. */
#ifndef LENT_H
#define LENT_H

#include <stdint.h>
#include <stdio.h>
#include <stdlib.h>
#include <string.h>
#include <sys/mman.h>
#include <unistd.h>

#define CHECK(fact) do { if (!(fact)) { fprintf(stderr, "%s:%d: %s (seed %llu)\n", __FILE__, __LINE__, #fact, (unsigned long long)seed_of_try); abort(); } } while (0)

static uint64_t seed_of_try, state;

/* splitmix64 */
static uint64_t random_number(void) {
    uint64_t z = (state += 0x9e3779b97f4a7c15u);
    z = (z ^ (z >> 30)) * 0xbf58476d1ce4e5b9u;
    z = (z ^ (z >> 27)) * 0x94d049bb133111ebu;
    return z ^ (z >> 31);
}

static size_t below(size_t most) { return most == 0 ? 0 : (size_t)(random_number() % most); }

/* What a room holds before a call. */
#define UNTOUCHED 0xAA

#define MOST_LENT (1u << 20)
#define PAGE 4096u

struct lender {
    uint8_t *pages;
};

static struct lender new_lender(void) {
    struct lender lender;
    lender.pages = mmap(NULL, MOST_LENT + 2 * PAGE, PROT_READ | PROT_WRITE, MAP_PRIVATE | MAP_ANONYMOUS, -1, 0);
    if (lender.pages == MAP_FAILED) abort();
    if (mprotect(lender.pages, PAGE, PROT_NONE) || mprotect(lender.pages + PAGE + MOST_LENT, PAGE, PROT_NONE)) abort();
    return lender;
}

/* So many bytes, right before the last page or right behind the first; those that are lent as `align` asks. */
static void *lend(struct lender *lender, size_t size, size_t align) {
    if (size > MOST_LENT) abort();
    uint8_t *at = below(4) == 0 ? lender->pages + PAGE : lender->pages + PAGE + MOST_LENT - size;
    if ((uintptr_t)at % align != 0) abort();
    memset(at, UNTOUCHED, size);
    return at;
}

static int is_untouched(const uint8_t *at, size_t size) {
    for (size_t i = 0; i < size; i++) if (at[i] != UNTOUCHED) return 0;
    return 1;
}

#endif
