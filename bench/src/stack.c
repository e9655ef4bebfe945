/* How many bytes of stack a call touches: it runs in a thread on a stack of our own that was painted before. */
#include <pthread.h>
#include <stddef.h>
#include <stdlib.h>
#include <string.h>

enum { STACK = 1 << 20, PAINT = 0x5a };

typedef struct {
    void (*call)(void *);
    void *memory;
} Body;

static void *run(void *given) {
    Body *body = given;
    body->call(body->memory);
    return NULL;
}

size_t bench_touched(void (*call)(void *), void *memory) {
    static unsigned char *stack;
    Body body = {call, memory};
    pthread_attr_t attr;
    pthread_t thread;
    if (stack == NULL && (stack = aligned_alloc(4096, STACK)) == NULL)
        abort();
    memset(stack, PAINT, STACK);
    pthread_attr_init(&attr);
    if (pthread_attr_setstack(&attr, stack, STACK) != 0 || pthread_create(&thread, &attr, run, &body) != 0)
        abort();
    pthread_join(thread, NULL);
    pthread_attr_destroy(&attr);
    /* By words, since a byte of the paint's value may have been written. */
    unsigned char word[8];
    memset(word, PAINT, sizeof word);
    size_t left = 0;
    while (left < STACK && memcmp(stack + left, word, sizeof word) == 0)
        left += sizeof word;
    return STACK - left;
}
