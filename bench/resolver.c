/* Times the resolver on made-up statement code; see bench/resolver. The units are those of crates/statement_code. */
#include <stddef.h>
#include <stdint.h>
#include <stdio.h>
#include <time.h>

uint64_t resolve_code(const uint16_t *code, size_t length, size_t users, size_t roles, size_t types);

enum { ATTRIBUTE = 1024, UNION = 2053, END = 2054, DECLARE = 4096, SET = 4099, RELATION = 4102, TRANSITION = 4105 };

static uint16_t code[65536];
static size_t length;
static unsigned place;

static void put(unsigned unit) { code[length++] = (uint16_t)unit; }

/* Attributes of each family, each filled from the next one, so that every round reaches one attribute more; the last has thing 0. */
static void nested(unsigned depth)
{
    length = 0;
    place = 0;
    for (unsigned family = 0; family < 3; family++)
        for (unsigned a = 0; a < depth; a++) {
            put(DECLARE + family);
            put(place++);
        }
    for (unsigned family = 0; family < 3; family++)
        for (unsigned a = 0; a < depth; a++) {
            put(SET + family);
            put(place++);
            put(a);
            put(UNION);
            put(a + 1 < depth ? ATTRIBUTE + a + 1 : 0);
            put(END);
        }
}

static void relations(unsigned count)
{
    for (unsigned i = 0; i < count && length + 4 <= 65535; i++) {
        put(RELATION + i % 3);
        put(place++ % 60000);
        put(i % 20);
        put(i % 20);
    }
}

static void transitions(unsigned count)
{
    for (unsigned i = 0; i < count; i++) {
        put(TRANSITION);
        put(place++);
        put(i % 128);
        put(i % 512);
        put(i % 32);
        put(i % 128);
    }
}

static double now(void)
{
    struct timespec t;
    clock_gettime(CLOCK_MONOTONIC, &t);
    return t.tv_sec * 1e3 + t.tv_nsec / 1e6;
}

static void show(const char *name, size_t users, size_t roles, size_t types)
{
    double best = 1e9;
    uint64_t answer = 0;
    for (int i = 0; i < 15; i++) {
        double start = now();
        answer = resolve_code(code, length, users, roles, types);
        double took = now() - start;
        if (took < best)
            best = took;
    }
    printf("%s: %zu units, fault %llu, %.3f ms (best of 15)\n", name, length, (unsigned long long)answer, best);
}

int main(void)
{
    nested(64);
    relations(65536);
    show("64 nested attributes of each family, full code", 128, 128, 512);
    nested(64);
    show("64 nested attributes of each family, nothing else", 128, 128, 512);
    nested(3);
    relations(300);
    show("3 nested attributes of each family, 300 relations", 40, 20, 60);
    nested(3);
    transitions(128);
    show("3 nested attributes of each family, 128 transitions", 128, 128, 512);
    return 0;
}
