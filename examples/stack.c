/* How much stack covering takes: two records of eleven atoms are compared in a thread whose stack was painted before,
 * once with room for four places in an atom and once for six. Fails above 4 KB. Compile with -pthread and link the
 * archive of the proved routines. */
#define _POSIX_C_SOURCE 200809L
#include "rauntiko.h"
#include <pthread.h>
#include <stdio.h>
#include <stdlib.h>
#include <string.h>

enum { STACK = 1 << 18, PAINT = 0xA5, ATOMS = 11, MOST = 4096 };

static uint8_t general[1 + 7 * ATOMS], special[1 + 7 * ATOMS];
static size_t width;

static void *nothing(void *unused) { return unused; }

static void *compare(void *unused) {
    size_t length = 1 + (1 + width) * ATOMS;
    uint8_t answer = rauntiko_covers(general, length, special, length, width, NULL, 0);
    return answer == 1 ? unused : NULL;
}

/* The bytes that a thread running this has written, counted from the stack's far end. */
static size_t touched(void *(*run)(void *)) {
    unsigned char *stack = aligned_alloc(4096, STACK);
    pthread_attr_t attributes;
    pthread_t thread;
    void *answer = NULL;
    memset(stack, PAINT, STACK);
    pthread_attr_init(&attributes);
    pthread_attr_setstack(&attributes, stack, STACK);
    if (pthread_create(&thread, &attributes, run, stack) || pthread_join(thread, &answer) || !answer) exit(1);
    size_t free_bytes = 0;
    while (stack[free_bytes] == PAINT) free_bytes++;
    free(stack);
    return STACK - free_bytes;
}

/* Records of atoms with room for so many places: r0(v0,v1), r0(v1,v2), .. to be placed on r0(c0,c1), r0(c1,c2), .. one
 * by one. */
static void fill(size_t places) {
    width = places;
    general[0] = special[0] = ATOMS;
    for (size_t i = 0; i < ATOMS; i++) {
        uint8_t from[7] = {0, (uint8_t)i, (uint8_t)(i + 1), 255, 255, 255, 255};
        uint8_t to[7] = {0, (uint8_t)(128 + i), (uint8_t)(129 + i), 255, 255, 255, 255};
        memcpy(general + 1 + (1 + width) * i, from, 1 + width);
        memcpy(special + 1 + (1 + width) * i, to, 1 + width);
    }
}

int main(void) {
    fill(4);
    size_t four = touched(compare) - touched(nothing);
    fill(6);
    size_t six = touched(compare) - touched(nothing);
    printf("comparing %d atoms with %d takes %zu bytes of stack, of six places %zu\n", ATOMS, ATOMS, four, six);
    return four > MOST || six > MOST;
}
