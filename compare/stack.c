/* How much stack each call takes, for the sheets that take the most: prints bytes. A proof says nothing of the stack. */
#include <pthread.h>
#include <stdio.h>
#include <stdlib.h>
#include <string.h>
#include "waldimu.h"

enum { ROOM = 8 << 20, PAINT = 0xa5 };

static uint64_t first[1600], second[1600], start[1600], reachable[1600];
static uint64_t code_span[1024], code_node[1024], name_span[1024], name_node[1024], name_end[1024];
static uint64_t finding_word[3072], finding_span[3072], mark[1024];
static uint64_t sheet[2050], uses[2049], scopes[1 + 2 * 512 + 2 * 1024];
static size_t words, use_words, scope_words;
static uint64_t answer;

static void *nothing(void *unused) { return unused; }

static void *chart(void *unused) {
    answer = waldimu_chart(sheet, words, first, 1600, second, 1600, start, 1600, reachable, 1600,
                           code_span, 1024, code_node, 1024, name_span, 1024, name_node, 1024, name_end, 1024);
    return unused;
}

static void *judge(void *unused) {
    answer = waldimu_judge(sheet, words, uses, use_words, scopes, scope_words,
                           first, 1600, second, 1600, start, 1600, reachable, 1600,
                           code_span, 1024, code_node, 1024, name_span, 1024, name_node, 1024, name_end, 1024,
                           finding_word, 3072, finding_span, 3072, mark, 1024);
    return unused;
}

static void *run(void *unused) {
    answer = waldimu_run(sheet, words, 5);
    return unused;
}

static void *label_check(void *unused) {
    answer = waldimu_label_check(sheet, words);
    return unused;
}

/* The bytes of a painted stack that a thread wrote to. */
static size_t painted_over(void *(*work)(void *)) {
    void *stack;
    pthread_attr_t attributes;
    pthread_t thread;
    if (posix_memalign(&stack, 4096, ROOM)) abort();
    memset(stack, PAINT, ROOM);
    pthread_attr_init(&attributes);
    if (pthread_attr_setstack(&attributes, stack, ROOM)) abort();
    if (pthread_create(&thread, &attributes, work, NULL)) abort();
    pthread_join(thread, NULL);
    size_t left = 0;
    while (left < ROOM && ((unsigned char *)stack)[left] == PAINT) left++;
    free(stack);
    return ROOM - left;
}

static void tell(const char *what) {
    void *(*calls[])(void *) = {chart, judge, run, label_check};
    const char *names[] = {"chart", "judge", "run", "label check"};
    size_t bare = painted_over(nothing);
    printf("%s:", what);
    for (int i = 0; i < 4; i++) {
        printf(" %s %zu", names[i], painted_over(calls[i]) - bare);
        if (answer & 15) abort();
    }
    puts("");
}

static void begin(size_t items, size_t used) {
    sheet[0] = items;
    sheet[1] = 4096;
    words = WALDIMU_SHEET_WORDS(items);
    uses[0] = used;
    use_words = WALDIMU_USE_WORDS(used);
    scope_words = 0;
}

static void put(size_t at, uint64_t kind, int has_code) {
    sheet[2 + at] = kind < 8 ? waldimu_item(kind, waldimu_scope(0, 4096)) : kind;
    sheet[2 + sheet[0] + at] = has_code ? waldimu_span(at, at + 1) : 0;
}

/* A LOCAL and its NAME: a modified local with a value. */
static void put_local(size_t at) {
    put(at, waldimu_item(WALDIMU_LOCAL, 1), 1);
    put(at + 1, waldimu_item(WALDIMU_NAME, 2), 1);
    sheet[2 + sheet[0] + at + 1] = sheet[2 + sheet[0] + at];
}

static void put_use(size_t at, uint32_t local, uint32_t kind, uint32_t offset) {
    uses[1 + at] = waldimu_use(local, kind, 0);
    uses[1 + uses[0] + at] = waldimu_span(offset, offset + 1);
}

/* A chain of 512 blocks with so many names in the outermost and every use in the innermost. */
static void put_scopes(size_t names) {
    scopes[0] = 512;
    for (size_t i = 0; i < 512; i++) {
        scopes[1 + i] = 2;
        scopes[513 + i] = i;
    }
    for (size_t i = 0; i < names + uses[0]; i++) scopes[1025 + i] = i < names ? 0 : 511;
    scope_words = 1025 + names + uses[0];
}

int main(void) {
    begin(1024, 0);
    for (size_t i = 0; i < 1024; i++) put(i, WALDIMU_PLAIN, 1);
    tell("1,024 PLAIN");
    begin(1024, 1024);
    for (size_t i = 0; i < 1022; i += 2) put_local(i);
    put(1022, WALDIMU_PLAIN, 1);
    put(1023, WALDIMU_PLAIN, 1);
    for (size_t i = 0; i < 1024; i++) put_use(i, i / 2 % 511, i % 2, 1022 + i % 2);
    tell("511 locals, 1,024 uses");
    put_scopes(511);
    tell("the same in 512 scopes");
    begin(128, 0);
    for (size_t i = 0; i < 128; i++) put(i, i < 64 ? WALDIMU_IF : WALDIMU_END, i < 64);
    tell("64 nested IF");
    begin(1024, 0);
    for (size_t i = 0; i < 1024; i++) put(i, i == 0 ? WALDIMU_IF : i < 1023 ? WALDIMU_ELSEIF : WALDIMU_END, i < 1023);
    tell("1,022 ELSEIF");
    begin(1024, 1024);
    put_local(0);
    for (size_t i = 2; i < 1024; i++) put(i, i == 2 ? WALDIMU_IF : i < 1023 ? WALDIMU_ELSEIF : WALDIMU_END, i < 1023);
    for (size_t i = 0; i < 1024; i++) put_use(i, 0, i % 3, i % 1020 + 2);
    tell("1,020 ELSEIF, 1,024 uses");
    return 0;
}
