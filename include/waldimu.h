/* Waldimu's calls for a unit's C code. Link libwaldimu.a, which `rt lib` in crates/waldimu makes from proved crates, for
   x86-64. Documents 01 and 02 are the authority for what a sheet is, what a call writes and why it is refused; this says
   it in short. All words and cells have 64 bits. examples/unit.c and examples/unit.rs show the calls in use.

   WHAT A CALLER OWES. A pointer is never null, not even with count 0, is aligned to 8 bytes, and that many words lie
   behind it. No column overlaps another one or a sheet. Columns may hold anything before a call. What the sheets hold and
   how long a column is need no care: what does not fit is refused. Without a scope sheet pass any such pointer, say the use
   sheet's, and 0 words.

   WHAT A CALL DOES. It ends on every input and writes to the columns alone. A refusal changes no cell. An accepted call
   writes the first cells of each column, as many as the result word tells; those behind them keep their content. Nothing
   is allocated or kept. Of the C library only memset is needed.

   THE STACK. The proofs say nothing of it. In KB of 1,000 bytes, measured by compare/stack.c with rattle-kit-13f, the most
   found last:

     sheet                     chart  judge    run  label check
     1,024 PLAIN                   2     73     94           18
     an IF with 1,022 ELSEIF       2     73     94           18
     64 nested IF                 10     73    102           18
*/
#ifndef WALDIMU_H
#define WALDIMU_H

#include <stddef.h>
#include <stdint.h>

#ifdef __cplusplus
extern "C" {
#endif

/* ---- Sizes ---- */

/* The most that a sheet, a use sheet and a scope sheet hold. */
#define WALDIMU_ITEMS 1024
#define WALDIMU_USES 1024
#define WALDIMU_SCOPES 512
#define WALDIMU_DEPTH 64 /* blocks in each other */

/* The fewest cells of a column. Longer columns do no harm. */
#define WALDIMU_NODES 1600
#define WALDIMU_CODES 1024
#define WALDIMU_LOCALS 1024
#define WALDIMU_FINDINGS 3072

/* How many words a sheet of n items, a use sheet of m uses, and a scope sheet of s scopes for p names and m uses have. */
#define WALDIMU_SHEET_WORDS(n) (2 * (n) + 2)
#define WALDIMU_USE_WORDS(m) (2 * (m) + 1)
#define WALDIMU_SCOPE_WORDS(s, p, m) (1 + 2 * (s) + (p) + (m))

/* ---- The sheet ----
   word 0                 n, the number of items
   word 1                 the outer block's scope end
   words 2 to n + 1       an item each: kind + 256 * argument
   words n + 2 to 2n + 1  the items' spans: start + 2^32 * end, byte offsets

   An argument S is condition + 32 * scope end. Spans are 0 where none is named. */
enum {
    WALDIMU_DO = 1,        /* S */
    WALDIMU_WHILE = 2,     /* S with condition; span from statement start to body start */
    WALDIMU_REPEAT = 3,    /* S with condition */
    WALDIMU_FOR = 4,       /* S; span as WHILE */
    WALDIMU_IF = 5,        /* S; header span */
    WALDIMU_ELSEIF = 6,    /* S; header span */
    WALDIMU_ELSE = 7,      /* S */
    WALDIMU_END = 8,       /* 0; closes DO, WHILE, FOR, IF */
    WALDIMU_UNTIL = 9,     /* 0; the condition's span; closes REPEAT */
    WALDIMU_LOCAL = 10,    /* number of values 0 to 65,534, or 65,535 for a call or `...` last; span */
    WALDIMU_NAME = 11,     /* 1 begins with underscore + 2 modified + 4 captured; span */
    WALDIMU_LABEL = 12,    /* name number 0 to 65,535, 0 has no identifier; span */
    WALDIMU_GOTO = 13,     /* as LABEL */
    WALDIMU_BREAK = 14,    /* 0; span */
    WALDIMU_CONTINUE = 15, /* 0; span */
    WALDIMU_RETURN = 16,   /* 1 with values, 0 without; span */
    WALDIMU_CALL = 17,     /* 0 to 127, raises exactly when 6; span */
    WALDIMU_PLAIN = 18,    /* 0; span */
    WALDIMU_EMPTY = 19     /* 0 */
};
/* Conditions: 0 and 1 are false (nil, false), 2 to 8 true, 9 to 18 unknown. */

/* ---- The use sheet ----
   word 0                 m, the number of uses
   words 1 to m           a use each: local + 65,536 * (kind + 4 * crossing), locals numbered in the order of NAMEs
   words m + 1 to 2m      the uses' spans */
enum { WALDIMU_READ = 0, WALDIMU_WRITE = 1, WALDIMU_READ_WRITE = 2 };

/* ---- The scope sheet ----
   word 0                 s, the number of scopes
   words 1 to s           the scopes' kinds
   words s + 1 to 2s      their parents: a lower scope number + 1, or 0 for none
   then                   the scope number of each NAME, in their order
   then                   the scope number of each use, in their order

   Where one comes it replaces the crossing of every use: from the use's own scope on, parent by parent, a Function met
   before the name's scope means 1, and the name's scope met first, itself a Function or not, or neither met means 0.
   0 words are no scope sheet, and then the crossing that the use sheet has counts. */
enum { WALDIMU_MODULE = 0, WALDIMU_FUNCTION = 1, WALDIMU_BLOCK = 2, WALDIMU_LOOP = 3 };

static inline uint64_t waldimu_span(uint32_t start, uint32_t end) { return start + ((uint64_t)end << 32); }
static inline uint32_t waldimu_span_start(uint64_t span) { return (uint32_t)span; }
static inline uint32_t waldimu_span_end(uint64_t span) { return (uint32_t)(span >> 32); }
static inline uint64_t waldimu_item(uint32_t kind, uint64_t argument) { return kind + 256 * argument; }
static inline uint64_t waldimu_scope(uint32_t condition, uint32_t end) { return condition + 32 * (uint64_t)end; }
static inline uint64_t waldimu_use(uint32_t local, uint32_t kind, uint32_t crossing) {
    return local + 65536 * ((uint64_t)kind + 4 * crossing);
}

/* ---- Result words ----
   Bits 0 to 3 hold the number of a refusal, and then no other bit is set; or 0, and then

     chart        bits 4 to 15 nodes, 16 to 31 codes, 32 to 47 names, the rest 0
     judge        the same, and bits 48 to 63 findings
     run          bit 4 whether the offset can run, bits 32 to 63 its node + 1, or 0 past all code, the rest 0
     label check  bit 4 whether the labels fit, the rest 0 */
static inline unsigned waldimu_refusal(uint64_t result) { return result & 15; }
static inline unsigned waldimu_nodes(uint64_t result) { return result >> 4 & 0xfff; }
static inline unsigned waldimu_codes(uint64_t result) { return result >> 16 & 0xffff; }
static inline unsigned waldimu_names(uint64_t result) { return result >> 32 & 0xffff; }
static inline unsigned waldimu_findings(uint64_t result) { return (unsigned)(result >> 48); }
static inline int waldimu_yes(uint64_t result) { return result >> 4 & 1; }
static inline int waldimu_is_past(uint64_t result) { return result >> 32 == 0; }
static inline uint32_t waldimu_node(uint64_t result) { return (uint32_t)(result >> 32) - 1; }

/* The numbers of 01's table, and 02's. The lowest that applies is given. Run and the label check never give 1, only judge
   gives 8 and 9. */
enum {
    WALDIMU_BENCH_TOO_SMALL = 1, /* a column has fewer cells than the sizes above */
    WALDIMU_MISCOUNT = 2,        /* n or m too large, or not as many words as they say */
    WALDIMU_BAD_ITEM = 3,        /* kind, argument, word 1 or span not as above, or start past end */
    WALDIMU_TOO_DEEP = 4,        /* among some first items kinds 1 to 5 outnumber 8 and 9 by more than 64 */
    WALDIMU_BAD_NESTING = 5,     /* openers and closers, arms, NAMEs, RETURN or CONTINUE not where they may stand */
    WALDIMU_OFF_THE_LINE = 6,    /* a code span before the previous one's end or past a scope end; REPEAT's scope end */
    WALDIMU_BAD_NAME = 7,        /* a NAME's span empty, outside its LOCAL or before the previous NAME's end */
    WALDIMU_BAD_USE = 8,         /* no such local, no such kind of use, crossing above 1, or start past end */
    WALDIMU_BAD_SCOPE = 9        /* s above 512, not as many words as it says, no such kind, parent or scope */
};

static inline const char *waldimu_refusal_word(unsigned number) {
    static const char *const words[] = {"bench too small", "miscount", "bad item", "too deep", "bad nesting",
                                        "off the line",    "bad name", "bad use",  "bad scope"};
    return number >= 1 && number <= 9 ? words[number - 1] : "";
}

/* ---- Columns ----
   column        at least           written   a cell holds
   first         WALDIMU_NODES      nodes     a node's first successor, or WALDIMU_ABSENT
   second        WALDIMU_NODES      nodes     its second successor, or WALDIMU_ABSENT
   start         WALDIMU_NODES      nodes     its code start, 0 where it has none
   reachable     WALDIMU_NODES      nodes     1 when a path leads to it from the entry, else 0
   code_span     WALDIMU_CODES      codes     a code's span
   code_node     WALDIMU_CODES      codes     its node
   name_span     WALDIMU_LOCALS     names     a name's span
   name_node     WALDIMU_LOCALS     names     its LOCAL's node
   name_end      WALDIMU_LOCALS     names     its scope end
   finding_word  WALDIMU_FINDINGS   findings  list + 2 * local + 2^32 * (use number + 1, or 0 for the initial value)
   finding_span  WALDIMU_FINDINGS   findings  the use's span, or the name's for the initial value
   mark          WALDIMU_LOCALS     names     a figure that is free, but at most the number of nodes

   Nodes 0 to 4 are exits and node 5 is the entry. Codes and names stand in the order of the sheet. Unassigned findings come
   first, then overwritten ones, each by local; one local's overwritten ones begin with its initial value, writes follow by
   node, in use order within a node. */
#define WALDIMU_ABSENT 4294967295u

enum {
    WALDIMU_EXIT_END = 0,
    WALDIMU_EXIT_BREAK = 1,
    WALDIMU_EXIT_RETURN_VALUE = 2,
    WALDIMU_EXIT_RETURN_EMPTY = 3,
    WALDIMU_EXIT_ERROR = 4,
    WALDIMU_ENTRY = 5
};

enum { WALDIMU_UNASSIGNED = 0, WALDIMU_OVERWRITTEN = 1 };

static inline unsigned waldimu_finding_list(uint64_t word) { return word & 1; }
static inline uint32_t waldimu_finding_local(uint64_t word) { return (uint32_t)word / 2; }
static inline int waldimu_finding_is_initial(uint64_t word) { return word >> 32 == 0; }
static inline uint32_t waldimu_finding_use(uint64_t word) { return (uint32_t)(word >> 32) - 1; }

/* ---- Calls ---- */

/* Writes a sheet's graph. */
uint64_t waldimu_chart(
    const uint64_t *sheet, size_t sheet_words,
    uint64_t *first, size_t first_cells,
    uint64_t *second, size_t second_cells,
    uint64_t *start, size_t start_cells,
    uint64_t *reachable, size_t reachable_cells,
    uint64_t *code_span, size_t code_span_cells,
    uint64_t *code_node, size_t code_node_cells,
    uint64_t *name_span, size_t name_span_cells,
    uint64_t *name_node, size_t name_node_cells,
    uint64_t *name_end, size_t name_end_cells);

/* Writes a sheet's graph, and the findings for its uses, with crossing as the scope sheet sets it, if one comes. */
uint64_t waldimu_judge(
    const uint64_t *sheet, size_t sheet_words,
    const uint64_t *uses, size_t use_words,
    const uint64_t *scopes, size_t scope_words,
    uint64_t *first, size_t first_cells,
    uint64_t *second, size_t second_cells,
    uint64_t *start, size_t start_cells,
    uint64_t *reachable, size_t reachable_cells,
    uint64_t *code_span, size_t code_span_cells,
    uint64_t *code_node, size_t code_node_cells,
    uint64_t *name_span, size_t name_span_cells,
    uint64_t *name_node, size_t name_node_cells,
    uint64_t *name_end, size_t name_end_cells,
    uint64_t *finding_word, size_t finding_word_cells,
    uint64_t *finding_span, size_t finding_span_cells,
    uint64_t *mark, size_t mark_cells);

/* Says which node an offset belongs to and whether its code can run. */
uint64_t waldimu_run(const uint64_t *sheet, size_t sheet_words, uint32_t offset);

/* Says whether no block has a label twice and every GOTO finds its label. */
uint64_t waldimu_label_check(const uint64_t *sheet, size_t sheet_words);

#ifdef __cplusplus
}
#endif

#endif
