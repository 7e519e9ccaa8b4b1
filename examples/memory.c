/* Feeds random, admitted and damaged sheets to every call, in buffers of exactly the size that the call is told.
   memory ROUNDS SEED heap    buffers from malloc, for valgrind or a sanitizer; every second round the columns are not
                              filled before the call, so that valgrind sees an answer that leans on what they held
   memory ROUNDS SEED fence   buffers that touch a page that faults, at their end or at their start
   A fault ends it, and so does a wrong cell: one that a refusal changed, one changed behind the written cells, or one
   written that no sheet can give. Prints how many calls gave which refusal. */
#include <stdio.h>
#include <stdlib.h>
#include <string.h>
#include <sys/mman.h>
#include "waldimu.h"

enum { COLUMNS = 12, CHART_COLUMNS = 9, SHEET = COLUMNS, USES, SCOPES, SLOTS, PAGE = 4096, SLOT_WORDS = 4096 };
enum { FIRST, SECOND, START, REACHABLE, CODE_SPAN, CODE_NODE, NAME_SPAN, NAME_NODE, NAME_END, FOUND_WORD, FOUND_SPAN, MARK };

static const size_t least[COLUMNS] = {
    WALDIMU_NODES, WALDIMU_NODES, WALDIMU_NODES, WALDIMU_NODES, WALDIMU_CODES, WALDIMU_CODES,
    WALDIMU_LOCALS, WALDIMU_LOCALS, WALDIMU_LOCALS, WALDIMU_FINDINGS, WALDIMU_FINDINGS, WALDIMU_LOCALS};

/* ---- Chance ---- */

static uint64_t state;

static uint64_t chance(void) {
    state += 0x9e3779b97f4a7c15u;
    uint64_t z = state;
    z = (z ^ z >> 30) * 0xbf58476d1ce4e5b9u;
    z = (z ^ z >> 27) * 0x94d049bb133111ebu;
    return z ^ z >> 31;
}

static uint64_t below(uint64_t bound) { return chance() % bound; }

/* Small, huge, or any. */
static uint64_t any_word(void) {
    switch (below(4)) {
    case 0: return below(32);
    case 1: return UINT64_MAX - below(4);
    case 2: return (uint64_t)1 << below(64);
    default: return chance();
    }
}

/* ---- Buffers ---- */

static int fenced;
static char *slots[SLOTS];

static void fence(void) {
    for (int i = 0; i < SLOTS; i++) {
        size_t inner = SLOT_WORDS * sizeof(uint64_t);
        slots[i] = mmap(NULL, inner + 2 * PAGE, PROT_NONE, MAP_PRIVATE | MAP_ANONYMOUS, -1, 0);
        if (slots[i] == MAP_FAILED) abort();
        slots[i] += PAGE;
        if (mprotect(slots[i], inner, PROT_READ | PROT_WRITE)) abort();
    }
}

static uint64_t *lend(int slot, size_t words) {
    if (!fenced) {
        uint64_t *heap = malloc(words * sizeof(uint64_t));
        if (!heap) abort();
        return heap;
    }
    if (words > SLOT_WORDS) abort();
    uint64_t *from = (uint64_t *)(void *)slots[slot];
    return below(2) ? from : from + (SLOT_WORDS - words);
}

static void give_back(uint64_t *buffer) {
    if (!fenced) free(buffer);
}

/* ---- Sheets ---- */

/* More items than are admitted, and what closes them. */
enum { ROOM = 1300 };

typedef struct {
    uint64_t words[SLOT_WORDS];
    size_t length;
} Sheet;

static uint64_t kinds[ROOM], spans[ROOM];
static size_t made, limit, names, depth;
static uint32_t offset, outer;

static uint64_t next_span(void) {
    uint32_t from = offset + below(3);
    offset = from + below(9);
    return waldimu_span(from, offset);
}

static void put(uint32_t kind, uint64_t argument, uint64_t span) {
    if (made == ROOM) abort();
    kinds[made] = waldimu_item(kind, argument);
    spans[made++] = span;
}

static uint64_t scope(void) { return waldimu_scope(below(19), outer); }

static void put_local(void) {
    size_t at = made;
    uint32_t from = offset + 1, end = from;
    put(WALDIMU_LOCAL, below(4) ? below(3) : 65535, 0);
    do {
        put(WALDIMU_NAME, below(8), waldimu_span(end, end + 2));
        end += 2 + below(2);
        names++;
    } while (below(3) && made < limit);
    offset = end + below(4);
    spans[at] = waldimu_span(from, offset);
}

static void put_block(void);

static void put_if(void) {
    put(WALDIMU_IF, waldimu_scope(0, outer), next_span());
    put_block();
    while (made < limit && below(3) == 0) {
        put(WALDIMU_ELSEIF, waldimu_scope(0, outer), next_span());
        put_block();
    }
    if (below(2)) {
        put(WALDIMU_ELSE, waldimu_scope(0, outer), 0);
        put_block();
    }
    put(WALDIMU_END, 0, 0);
}

static void put_repeat(void) {
    size_t at = made;
    uint64_t condition = below(19);
    put(WALDIMU_REPEAT, 0, 0);
    put_block();
    put(WALDIMU_UNTIL, 0, next_span());
    kinds[at] = waldimu_item(WALDIMU_REPEAT, waldimu_scope(condition, offset));
}

static void put_statement(void) {
    switch (depth < 60 ? below(14) : 5 + below(9)) {
    case 0: put(WALDIMU_DO, waldimu_scope(0, outer), 0), put_block(), put(WALDIMU_END, 0, 0); break;
    case 1: put(WALDIMU_WHILE, scope(), next_span()), put_block(), put(WALDIMU_END, 0, 0); break;
    case 2: put(WALDIMU_FOR, waldimu_scope(0, outer), next_span()), put_block(), put(WALDIMU_END, 0, 0); break;
    case 3: put_if(); break;
    case 4: put_repeat(); break;
    case 5: case 6: case 7: put_local(); break;
    case 8: put(WALDIMU_LABEL, 1 + below(4), next_span()); break;
    case 9: put(WALDIMU_GOTO, below(5), next_span()); break;
    case 10: put(WALDIMU_BREAK, 0, next_span()); break;
    case 11: put(WALDIMU_CALL, below(3) ? below(128) : 6, next_span()); break;
    case 12: put(WALDIMU_EMPTY, 0, 0); break;
    default: put(WALDIMU_PLAIN, 0, next_span()); break;
    }
}

static void put_block(void) {
    depth++;
    while (made < limit && below(4)) put_statement();
    if (made < limit && below(6) == 0) {
        if (below(2)) put(WALDIMU_RETURN, below(2), next_span());
        else put(WALDIMU_CONTINUE, 0, next_span());
    }
    depth--;
}

static void finish(Sheet *sheet) {
    sheet->words[0] = made;
    sheet->words[1] = outer;
    memcpy(sheet->words + 2, kinds, made * sizeof *kinds);
    memcpy(sheet->words + 2 + made, spans, made * sizeof *spans);
    sheet->length = WALDIMU_SHEET_WORDS(made);
}

/* Admitted, but where there are too many items, or code past a small outer end. */
static void make_sheet(Sheet *sheet) {
    made = names = depth = 0;
    offset = below(5);
    outer = below(10) ? 1000000 : 50;
    limit = below(8) ? below(40) : below(2) ? 850 : below(1000);
    while (made < limit) put_statement();
    finish(sheet);
}

/* One item as often as fits, or deep nesting: what takes the most room. */
static void make_extreme(Sheet *sheet) {
    size_t count = 1020 + below(6);
    made = names = 0;
    offset = 0;
    outer = 1000000;
    switch (below(5)) {
    case 0: while (made < count) put(WALDIMU_PLAIN, 0, next_span()); break;
    case 1: while (made < count) put(WALDIMU_LABEL, 1 + made % 65535, next_span()); break;
    case 2:
        offset = 2 * count;
        put(WALDIMU_LOCAL, below(1024), waldimu_span(0, offset));
        while (made < count / 2) put(WALDIMU_NAME, below(8), waldimu_span(2 * made, 2 * made + 1)), names++;
        while (made < count) put(WALDIMU_PLAIN, 0, next_span());
        break;
    case 3:
        put(WALDIMU_IF, waldimu_scope(0, outer), next_span());
        while (made + 1 < count) put(WALDIMU_ELSEIF, waldimu_scope(0, outer), next_span());
        put(WALDIMU_END, 0, 0);
        break;
    default:
        count = 62 + below(5);
        while (made < count) put(WALDIMU_WHILE, scope(), next_span());
        while (made < 2 * count) put(WALDIMU_END, 0, 0);
    }
    finish(sheet);
}

static void make_noise(Sheet *sheet) {
    sheet->length = below(40);
    for (size_t i = 0; i < sheet->length; i++) sheet->words[i] = any_word();
    if (sheet->length >= 2 && below(2)) {
        sheet->words[0] = (sheet->length - 2) / 2;
        for (size_t i = 2; i < 2 + sheet->words[0]; i++)
            sheet->words[i] = waldimu_item(below(21), below(3) ? 0 : below(300));
    }
}

static void make_uses(Sheet *uses) {
    size_t m = !names ? 0 : below(6) ? below(12) : 1020 + below(6);
    uses->words[0] = m;
    for (size_t i = 0; i < m; i++) {
        uint64_t from = below(offset + 2), local = below(names);
        uses->words[1 + i] = waldimu_use(local, below(3), below(2));
        uses->words[1 + m + i] = waldimu_span(from, from + below(3));
    }
    uses->length = WALDIMU_USE_WORDS(m);
}

/* Of a sheet just made, and of a use sheet. Admitted, but where there are 513 scopes. Chains, bushes and roots. */
static void make_scopes(Sheet *scopes, const Sheet *uses) {
    size_t m = uses->length ? (uses->length - 1) / 2 : 0;
    size_t s = below(6) ? 1 + below(12) : 511 + below(3), steps = below(2) ? 1 : s;
    scopes->words[0] = s;
    for (size_t i = 0; i < s; i++) {
        scopes->words[1 + i] = below(4);
        scopes->words[1 + s + i] = i && below(20) ? i - below(i < steps ? i : steps) : 0;
    }
    for (size_t i = 0; i < names + m; i++) scopes->words[1 + 2 * s + i] = below(4) ? below(s) : i < names ? 0 : s - 1;
    scopes->length = WALDIMU_SCOPE_WORDS(s, names, m);
}

static void damage(Sheet *sheet) {
    size_t at = sheet->length ? below(sheet->length) : 0;
    switch (below(6)) {
    case 0: sheet->words[at] ^= (uint64_t)1 << below(64); break;
    case 1: sheet->words[at] = any_word(); break;
    case 2: sheet->length -= sheet->length ? 1 + below(sheet->length) : 0; break;
    case 3: sheet->words[sheet->length++] = any_word(); break;
    case 4: sheet->words[0] += below(2) ? 1 : (uint64_t)-1; break;
    default: {
        size_t to = sheet->length ? below(sheet->length) : 0;
        uint64_t kept = sheet->words[at];
        sheet->words[at] = sheet->words[to];
        sheet->words[to] = kept;
    }
    }
}

/* ---- Calls ---- */

static uint64_t *columns[COLUMNS];
static size_t cells[COLUMNS];
static uint64_t salt;
static long told[3][10];

static void wrong(const char *what, int column, size_t at) {
    printf("wrong: %s, column %d, cell %zu\n", what, column, at);
    exit(1);
}

static uint64_t filling(int column, size_t at) { return (salt + at * 13 + column) * 0x9e3779b97f4a7c15u; }

static uint64_t *copy(int slot, const Sheet *sheet) {
    uint64_t *words = lend(slot, sheet->length);
    memcpy(words, sheet->words, sheet->length * sizeof *words);
    return words;
}

static void lend_columns(int many, int is_filled) {
    int cut = below(4) ? -1 : (int)below(many);
    salt = chance();
    for (int c = 0; c < many; c++) {
        cells[c] = c == cut ? below(3) ? least[c] - 1 : below(least[c]) : least[c] + (below(4) ? 0 : below(9));
        columns[c] = lend(c, cells[c]);
        for (size_t i = 0; is_filled && i < cells[c]; i++) columns[c][i] = filling(c, i);
    }
}

/* Whether no sheet can give this cell. */
static int is_odd(int column, uint64_t cell, uint64_t result, uint64_t uses) {
    uint64_t nodes = waldimu_nodes(result);
    switch (column) {
    case FIRST: case SECOND: return cell >= nodes && cell != WALDIMU_ABSENT;
    case START: case NAME_END: return cell >> 32 != 0;
    case REACHABLE: return cell > 1;
    case CODE_SPAN: case NAME_SPAN: case FOUND_SPAN: return waldimu_span_start(cell) > waldimu_span_end(cell);
    case CODE_NODE: case NAME_NODE: return cell >= nodes;
    case FOUND_WORD: return waldimu_finding_local(cell) >= waldimu_names(result) || cell >> 32 > uses;
    default: return cell > nodes;
    }
}

static size_t written(int column, uint64_t result) {
    if (waldimu_refusal(result)) return 0;
    return column <= REACHABLE                             ? waldimu_nodes(result)
           : column <= CODE_NODE                           ? waldimu_codes(result)
           : column == FOUND_WORD || column == FOUND_SPAN  ? waldimu_findings(result)
                                                           : waldimu_names(result);
}

static void look(int many, int is_filled, uint64_t result, uint64_t uses) {
    unsigned refusal = waldimu_refusal(result);
    if (refusal > 9 || (refusal && result != refusal)) wrong("result", -1, refusal);
    for (int c = 0; c < many; c++) {
        size_t count = written(c, result);
        if (!refusal && cells[c] < least[c]) wrong("not refused", c, cells[c]);
        for (size_t i = 0; i < count; i++)
            if (is_odd(c, columns[c][i], result, uses)) wrong("odd", c, i);
        for (size_t i = count; is_filled && i < cells[c]; i++)
            if (columns[c][i] != filling(c, i)) wrong("changed", c, i);
        give_back(columns[c]);
    }
}

static uint64_t chart(const Sheet *sheet, int is_filled) {
    uint64_t *words = copy(SHEET, sheet);
    lend_columns(CHART_COLUMNS, is_filled);
    uint64_t result = waldimu_chart(
        words, sheet->length, columns[FIRST], cells[FIRST], columns[SECOND], cells[SECOND], columns[START], cells[START],
        columns[REACHABLE], cells[REACHABLE], columns[CODE_SPAN], cells[CODE_SPAN], columns[CODE_NODE], cells[CODE_NODE],
        columns[NAME_SPAN], cells[NAME_SPAN], columns[NAME_NODE], cells[NAME_NODE], columns[NAME_END], cells[NAME_END]);
    look(CHART_COLUMNS, is_filled, result, 0);
    if (result >> 48) wrong("chart found something", -1, 0);
    if (waldimu_refusal(result) > WALDIMU_BAD_NAME) wrong("chart refuses what it is not given", -1, 0);
    if (memcmp(words, sheet->words, sheet->length * sizeof *words)) wrong("sheet changed by chart", -1, 0);
    give_back(words);
    return result;
}

static uint64_t judge(const Sheet *sheet, const Sheet *uses, const Sheet *scopes, int is_filled) {
    uint64_t *words = copy(SHEET, sheet), *used = copy(USES, uses), *scoped = copy(SCOPES, scopes);
    lend_columns(COLUMNS, is_filled);
    uint64_t result = waldimu_judge(
        words, sheet->length, used, uses->length, scoped, scopes->length, columns[FIRST], cells[FIRST],
        columns[SECOND], cells[SECOND], columns[START], cells[START], columns[REACHABLE], cells[REACHABLE],
        columns[CODE_SPAN], cells[CODE_SPAN], columns[CODE_NODE], cells[CODE_NODE], columns[NAME_SPAN], cells[NAME_SPAN],
        columns[NAME_NODE], cells[NAME_NODE], columns[NAME_END], cells[NAME_END], columns[FOUND_WORD], cells[FOUND_WORD],
        columns[FOUND_SPAN], cells[FOUND_SPAN], columns[MARK], cells[MARK]);
    look(COLUMNS, is_filled, result, uses->words[0]);
    if (memcmp(words, sheet->words, sheet->length * sizeof *words)) wrong("sheet changed by judge", -1, 0);
    if (memcmp(used, uses->words, uses->length * sizeof *used)) wrong("use sheet changed", -1, 0);
    if (memcmp(scoped, scopes->words, scopes->length * sizeof *scoped)) wrong("scope sheet changed", -1, 0);
    give_back(words);
    give_back(used);
    give_back(scoped);
    return result;
}

static uint64_t ask(const Sheet *sheet) {
    uint64_t *words = copy(SHEET, sheet);
    uint64_t fit = waldimu_label_check(words, sheet->length);
    for (int i = 0; i < 3; i++) {
        uint64_t result = waldimu_run(words, sheet->length, i ? below(offset + 2) : chance());
        if (waldimu_refusal(result) != waldimu_refusal(fit)) wrong("run and label check differ", -1, 0);
        if (waldimu_refusal(result) ? result != waldimu_refusal(result) : waldimu_is_past(result) && !waldimu_yes(result))
            wrong("run", -1, 0);
    }
    if (memcmp(words, sheet->words, sheet->length * sizeof *words)) wrong("sheet changed", -1, 0);
    give_back(words);
    return fit;
}

static void play(void) {
    static Sheet sheet, uses, scopes;
    int is_filled = fenced || below(2);
    switch (below(16)) {
    case 0: make_noise(&sheet); break;
    case 1: make_extreme(&sheet); break;
    default: make_sheet(&sheet);
    }
    if (below(16)) make_uses(&uses);
    else make_noise(&uses);
    if (below(3) == 0) damage(&sheet);
    if (below(6) == 0) damage(&sheet);
    if (below(4) == 0) damage(&uses);
    switch (below(8)) {
    case 0: make_noise(&scopes); break;
    case 1: case 2: scopes.length = 0; break;
    default: make_scopes(&scopes, &uses);
    }
    if (scopes.length && below(4) == 0) damage(&scopes);
    unsigned charted = waldimu_refusal(chart(&sheet, is_filled));
    unsigned judged = waldimu_refusal(judge(&sheet, &uses, &scopes, is_filled));
    unsigned asked = waldimu_refusal(ask(&sheet));
    if (charted != asked && charted != WALDIMU_BENCH_TOO_SMALL) wrong("chart and label check differ", -1, charted);
    if (!asked && judged && judged != WALDIMU_BENCH_TOO_SMALL && judged != WALDIMU_MISCOUNT && judged < WALDIMU_BAD_USE)
        wrong("judge refuses an admitted sheet", -1, judged);
    if (judged == WALDIMU_BAD_SCOPE && !scopes.length) wrong("judge refuses a scope sheet that does not come", -1, 0);
    told[0][charted]++;
    told[1][judged]++;
    told[2][asked]++;
}

int main(int count, char **arguments) {
    if (count != 4) return 2;
    long rounds = atol(arguments[1]);
    state = strtoull(arguments[2], NULL, 10);
    fenced = !strcmp(arguments[3], "fence");
    if (fenced) fence();
    for (long i = 0; i < rounds; i++) play();
    const char *calls[] = {"chart", "judge", "run and label check"};
    for (int i = 0; i < 3; i++) {
        printf("%s: accepted %ld, refused 1 to 9:", calls[i], told[i][0]);
        for (int number = 1; number <= 9; number++) printf(" %ld", told[i][number]);
        puts("");
    }
    return 0;
}
