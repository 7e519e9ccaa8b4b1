/* A unit's C code over include/waldimu.h: judges 01's printed sheet and some more, and prints the answers in words. */
#include <stdio.h>
#include "waldimu.h"

static uint64_t first[WALDIMU_NODES], second[WALDIMU_NODES], start[WALDIMU_NODES], reachable[WALDIMU_NODES];
static uint64_t code_span[WALDIMU_CODES], code_node[WALDIMU_CODES];
static uint64_t name_span[WALDIMU_LOCALS], name_node[WALDIMU_LOCALS], name_end[WALDIMU_LOCALS], mark[WALDIMU_LOCALS];
static uint64_t finding_word[WALDIMU_FINDINGS], finding_span[WALDIMU_FINDINGS];

/* What comes where no scope sheet does: a pointer that is not null, and 0 words. */
static const uint64_t no_scopes[1];

static uint64_t judge(const uint64_t *sheet, size_t sheet_words, const uint64_t *uses, size_t use_words,
                      const uint64_t *scopes, size_t scope_words) {
    return waldimu_judge(sheet, sheet_words, uses, use_words, scopes, scope_words,
                         first, WALDIMU_NODES, second, WALDIMU_NODES, start, WALDIMU_NODES, reachable, WALDIMU_NODES,
                         code_span, WALDIMU_CODES, code_node, WALDIMU_CODES,
                         name_span, WALDIMU_LOCALS, name_node, WALDIMU_LOCALS, name_end, WALDIMU_LOCALS,
                         finding_word, WALDIMU_FINDINGS, finding_span, WALDIMU_FINDINGS, mark, WALDIMU_LOCALS);
}

static void print_successor(uint64_t node) {
    if (node == WALDIMU_ABSENT) printf(" none");
    else printf(" %u", (unsigned)node);
}

static void print_node(unsigned node) {
    printf("node %u: to", node);
    print_successor(first[node]);
    printf(" and");
    print_successor(second[node]);
    printf(", code start %u, %s\n", (unsigned)start[node], reachable[node] ? "reachable" : "unreachable");
}

static void print_finding(uint64_t word, uint64_t span) {
    printf("%s: local %u, ", waldimu_finding_list(word) == WALDIMU_UNASSIGNED ? "unassigned" : "overwritten",
           (unsigned)waldimu_finding_local(word));
    if (waldimu_finding_is_initial(word)) printf("its initial value");
    else printf("use %u", (unsigned)waldimu_finding_use(word));
    printf(", bytes %u to %u\n", (unsigned)waldimu_span_start(span), (unsigned)waldimu_span_end(span));
}

static void print_judged(uint64_t result) {
    if (waldimu_refusal(result)) {
        printf("refused %u: %s\n", waldimu_refusal(result), waldimu_refusal_word(waldimu_refusal(result)));
        return;
    }
    printf("nodes %u, codes %u, names %u, findings %u\n", waldimu_nodes(result), waldimu_codes(result),
           waldimu_names(result), waldimu_findings(result));
    for (unsigned i = 0; i < waldimu_nodes(result); i++) print_node(i);
    for (unsigned i = 0; i < waldimu_findings(result); i++) print_finding(finding_word[i], finding_span[i]);
}

/* The sheets here are admitted, so run and the label check need no look at a refusal. */
static void print_offset(const uint64_t *sheet, size_t sheet_words, uint32_t offset) {
    uint64_t result = waldimu_run(sheet, sheet_words, offset);
    printf("offset %u: ", (unsigned)offset);
    if (waldimu_is_past(result)) printf("past all code");
    else printf("node %u", (unsigned)waldimu_node(result));
    puts(waldimu_yes(result) ? ", can run" : ", cannot run");
}

static void print_labels(const uint64_t *sheet, size_t sheet_words) {
    puts(waldimu_yes(waldimu_label_check(sheet, sheet_words)) ? "labels fit" : "labels do not fit");
}

/* A local without a value whose one read stands in a Function. */
static void print_read_in_function(uint64_t flags, size_t scope_words) {
    const uint64_t sheet[WALDIMU_SHEET_WORDS(3)] = {
        3, 13,
        waldimu_item(WALDIMU_LOCAL, 0), waldimu_item(WALDIMU_NAME, flags), WALDIMU_PLAIN,
        waldimu_span(0, 9), waldimu_span(6, 7), waldimu_span(10, 13)};
    const uint64_t uses[WALDIMU_USE_WORDS(1)] = {1, waldimu_use(0, WALDIMU_READ, 0), waldimu_span(10, 11)};
    const uint64_t scopes[WALDIMU_SCOPE_WORDS(2, 1, 1)] = {
        2,
        WALDIMU_MODULE, WALDIMU_FUNCTION,
        0, 0 + 1, /* the Function's parent is scope 0 */
        0,        /* the NAME's scope */
        1};       /* the use's */
    print_judged(judge(sheet, WALDIMU_SHEET_WORDS(3), uses, WALDIMU_USE_WORDS(1), scopes, scope_words));
}

int main(void) {
    const uint64_t printed[WALDIMU_SHEET_WORDS(4)] = {
        4, 22,
        waldimu_item(WALDIMU_LOCAL, 1), waldimu_item(WALDIMU_NAME, 2), WALDIMU_PLAIN, WALDIMU_CALL,
        waldimu_span(0, 9), waldimu_span(6, 7), waldimu_span(10, 13), waldimu_span(14, 22)};
    const uint64_t printed_uses[WALDIMU_USE_WORDS(2)] = {
        2,
        waldimu_use(0, WALDIMU_WRITE, 0), waldimu_use(0, WALDIMU_READ, 0),
        waldimu_span(10, 11), waldimu_span(20, 21)};
    puts("local x=1 x=2 print(x)");
    print_judged(judge(printed, WALDIMU_SHEET_WORDS(4), printed_uses, WALDIMU_USE_WORDS(2), no_scopes, 0));
    print_offset(printed, WALDIMU_SHEET_WORDS(4), 8);
    print_offset(printed, WALDIMU_SHEET_WORDS(4), 9);
    print_offset(printed, WALDIMU_SHEET_WORDS(4), 22);
    print_labels(printed, WALDIMU_SHEET_WORDS(4));

    const uint64_t added[WALDIMU_SHEET_WORDS(3)] = {
        3, 12,
        waldimu_item(WALDIMU_LOCAL, 0), waldimu_item(WALDIMU_NAME, 2), WALDIMU_PLAIN,
        waldimu_span(0, 7), waldimu_span(6, 7), waldimu_span(8, 12)};
    const uint64_t added_uses[WALDIMU_USE_WORDS(1)] = {1, waldimu_use(0, WALDIMU_READ_WRITE, 0), waldimu_span(8, 9)};
    puts("\nlocal x x+=1");
    print_judged(judge(added, WALDIMU_SHEET_WORDS(3), added_uses, WALDIMU_USE_WORDS(1), no_scopes, 0));

    puts("\nthe printed sheet without its last word");
    print_judged(judge(printed, WALDIMU_SHEET_WORDS(4) - 1, printed_uses, WALDIMU_USE_WORDS(2), no_scopes, 0));

    puts("\na captured local of a Module, read in a Function");
    print_read_in_function(4, WALDIMU_SCOPE_WORDS(2, 1, 1));
    puts("\nthe same, not marked as captured");
    print_read_in_function(0, WALDIMU_SCOPE_WORDS(2, 1, 1));
    puts("\nthe same, captured, without the scope sheet");
    print_read_in_function(4, 0);
    puts("\nthe same, captured, without the scope sheet's last word");
    print_read_in_function(4, WALDIMU_SCOPE_WORDS(2, 1, 1) - 1);
    return 0;
}
