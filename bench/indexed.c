/* A plain stack machine over indexed boards: what the speed of `flame run` is measured beside. bench/models writes its
   tables and compares what the two write.

       indexed TABLES OUT N

   It reads the tables of a model and a population and runs N iterations. Of each it writes the file that
   `flame run --format 2` writes, byte for byte, and prints its line.

   Rules. Rows of numbers lie one after the other: agents by type and state, messages by board. The functions come in model
   order; an agent takes the first function in document order whose condition holds. Its row is copied to the state that
   the function enters and the code runs on the copy, instruction for instruction as `flame code` lists it, with the same
   tests at run time: fuel, overflow, divisors and indexes of arrays. A board is sorted when its first reader comes, and with
   it an index is built for each two of an equality and a sort that its readers have: its rows once more, by the column of
   the equality and then in the order of the view. So a view is a range of an index, on which the rest of the filter is
   tested row by row. The range is found by a table of starts where the values are dense, else by binary search. A list
   grows by doubling and is kept: no agent, message or view takes memory of its own.

   Left out: workers; format 1; data types, nested files and tests of the input, since the tables come from an accepted
   model; and which faulting agent is the least: a fault ends the run with the cause and line of the first that is met. */
#include <limits.h>
#include <stdbool.h>
#include <stdint.h>
#include <stdio.h>
#include <stdlib.h>
#include <string.h>

#define WORD 202 /* bytes of the longest word, a type and a function of 100 bytes each, and its end */

#define INSTRUCTIONS(X) X(Push) X(Dup) X(Drop) X(Loc) X(SetLoc) X(Mem) X(SetMem) X(MemAt) X(SetMemAt) X(Const) X(Iter) \
    X(Field) X(FieldAt) X(Neg) X(Not) X(Add) X(Sub) X(Mul) X(Div) X(Rem) X(Lt) X(Gt) X(Le) X(Ge) X(Eq) X(Ne) X(Jump) \
    X(JumpZero) X(JumpNotZero) X(Pay) X(Enter) X(Next) X(Leave) X(Send) X(Bear) X(Call) X(Return)
#define ITSELF(name) name,
#define QUOTED(name) #name,
enum instruction { INSTRUCTIONS(ITSELF) };
static const char *const instructions[] = {INSTRUCTIONS(QUOTED) NULL};

enum test { ALWAYS, EQ, NEQ, LT, GT, LEQ, GEQ, AND, OR, NOT, TIME };
static const char *const tests[] = {"ALWAYS", "EQ", "NEQ", "LT", "GT", "LEQ", "GEQ", "AND", "OR", "NOT", "TIME", NULL};

enum side { NUMBER, MEMORY, MESSAGE };
static const char *const sides[] = {"number", "memory", "message", NULL};

enum cause { NONE, OVERFLOWS, DIVISION_BY_ZERO, BAD_INDEX, FUEL };
static const char *const causes[] = {"", "Overflow", "DivideByZero", "BadIndex", "Fuel"};

struct instr {
    enum instruction name;
    int32_t a, b, c, d;
};

struct code {
    size_t locals, length;
    struct instr *instrs;
};

struct rows {
    size_t width, count, room;
    int32_t *numbers;
};

struct operand {
    enum side side;
    int32_t number; /* itself, or a column */
};

struct condition {
    enum test test;
    struct operand left, right;        /* of a comparison; the phase of a time condition stands left */
    int32_t period, duration;          /* of a time condition */
    struct condition *first, *second;  /* of AND, OR and NOT */
};

struct entry {
    int32_t value, key; /* of the equality and of the sort, 0 without one */
    size_t place;
};

struct index {
    int32_t equal, sort, descend; /* columns, -1 for none */
    struct entry *entries;
    struct rows rows;
    bool dense;
    int32_t least, most;
    size_t *starts; /* of each value from the least on, and behind the most */
};

struct board {
    char name[WORD];
    struct rows rows;
    bool frozen;
    size_t index_count;
    struct index *indexes;
};

struct type {
    char name[WORD];
    size_t states;
    struct rows *agents; /* of each state, the start state first */
    struct rows born;
};

struct input {
    struct board *board;
    size_t index; /* of the board's */
    struct operand value;
    struct condition *rest;
    const int32_t *row, *next; /* the row that came last, and where the next one stands */
    size_t left;
};

struct function {
    char name[WORD];
    size_t type, from, to, earlier_count, input_count;
    struct condition **earlier; /* the conditions of the functions that go before it in its state */
    struct condition *condition;
    struct input *inputs;
    struct code code;
};

struct machine {
    struct input *inputs;
    const int32_t *entry; /* the memory when the function was entered */
    int32_t *memory, iteration;
    uint32_t fuel;
    enum cause cause;
    int32_t line;
};

struct text {
    char *bytes;
    size_t length, room;
};

static size_t board_count, type_count, constant_count, helper_count, function_count;
static struct board *boards;
static struct type *types;
static int32_t *constants;
static struct code *helpers;
static struct function *functions;

/* ---- rows */

static void *sized(void *old, size_t count, size_t size) {
    void *all = realloc(old, count * size + 1);
    if (all == NULL) {
        fputs("no memory\n", stderr);
        exit(4);
    }
    return all;
}

/* The place of one more row, which is not counted yet. */
static int32_t *place_behind(struct rows *rows) {
    if (rows->count == rows->room) {
        rows->room = 2 * rows->room + 16;
        rows->numbers = sized(rows->numbers, rows->room, rows->width * sizeof *rows->numbers);
    }
    return rows->numbers + rows->count * rows->width;
}

static void add(struct rows *rows, const int32_t *row) {
    memcpy(place_behind(rows), row, rows->width * sizeof *row);
    rows->count++;
}

static void add_all(struct rows *rows, struct rows *others) {
    for (size_t k = 0; k < others->count; k++) add(rows, others->numbers + k * others->width);
    others->count = 0;
}

/* Sorts them where they do not ascend already. */
static void sort(void *all, size_t count, size_t size, int (*compare)(const void *, const void *)) {
    const char *at = all;
    for (size_t k = 1; k < count; k++, at += size) {
        if (compare(at, at + size) > 0) {
            qsort(all, count, size, compare);
            return;
        }
    }
}

static size_t compared; /* the width of the rows that are compared */

static int compare_rows(const void *one, const void *other) {
    const int32_t *v = one, *w = other;
    for (size_t k = 0; k < compared; k++) {
        if (v[k] != w[k]) return v[k] < w[k] ? -1 : 1;
    }
    return 0;
}

static void sort_rows(struct rows *rows) {
    compared = rows->width;
    sort(rows->numbers, rows->count, rows->width * sizeof *rows->numbers, compare_rows);
}

/* ---- conditions */

static int32_t value_of(const struct operand *o, const int32_t *memory, const int32_t *message) {
    return o->side == NUMBER ? o->number : o->side == MEMORY ? memory[o->number] : message[o->number];
}

static bool holds(const struct condition *c, const int32_t *memory, const int32_t *message, int32_t iteration) {
    if (c->test == ALWAYS) return true;
    int32_t v = value_of(&c->left, memory, message), w = value_of(&c->right, memory, message);
    switch (c->test) {
    case ALWAYS: break;
    case EQ: return v == w;
    case NEQ: return v != w;
    case LT: return v < w;
    case GT: return v > w;
    case LEQ: return v <= w;
    case GEQ: return v >= w;
    case AND: return holds(c->first, memory, message, iteration) && holds(c->second, memory, message, iteration);
    case OR: return holds(c->first, memory, message, iteration) || holds(c->second, memory, message, iteration);
    case NOT: return !holds(c->first, memory, message, iteration);
    case TIME: return v <= iteration % c->period && iteration % c->period < (int64_t)v + c->duration;
    }
    return true;
}

/* ---- boards */

static int compare_entries(const void *one, const void *other) {
    const struct entry *v = one, *w = other;
    if (v->value != w->value) return v->value < w->value ? -1 : 1;
    if (v->key != w->key) return v->key < w->key ? -1 : 1;
    return v->place < w->place ? -1 : 1;
}

static void build(struct index *index, const struct rows *rows) {
    size_t count = rows->count;
    index->rows.count = 0;
    if (count == 0) return;
    index->entries = sized(index->entries, count, sizeof *index->entries);
    for (size_t k = 0; k < count; k++) {
        const int32_t *row = rows->numbers + k * rows->width;
        int32_t key = index->sort < 0 ? 0 : row[index->sort];
        index->entries[k] = (struct entry){index->equal < 0 ? 0 : row[index->equal], index->descend ? ~key : key, k};
    }
    sort(index->entries, count, sizeof *index->entries, compare_entries);
    for (size_t k = 0; k < count; k++) add(&index->rows, rows->numbers + index->entries[k].place * rows->width);
    index->least = index->entries[0].value;
    index->most = index->entries[count - 1].value;
    size_t span = (size_t)((int64_t)index->most - index->least) + 1;
    index->dense = span <= 4 * count;
    if (!index->dense) return;
    index->starts = sized(index->starts, span + 1, sizeof *index->starts);
    for (size_t value = 0, k = 0; value <= span; value++) {
        while (k < count && (size_t)((int64_t)index->entries[k].value - index->least) < value) k++;
        index->starts[value] = k;
    }
}

static void freeze(struct board *board) {
    if (board->frozen) return;
    board->frozen = true;
    sort_rows(&board->rows);
    for (size_t k = 0; k < board->index_count; k++) build(&board->indexes[k], &board->rows);
}

/* How many of the rows have a value below this one. */
static size_t below(const struct index *index, int64_t value) {
    size_t from = 0, to = index->rows.count;
    while (from < to) {
        size_t middle = from + (to - from) / 2;
        if (index->entries[middle].value < value) from = middle + 1;
        else to = middle;
    }
    return from;
}

/* Goes before the first of the rows that pass the equality. */
static void begin(struct input *input, const int32_t *memory) {
    const struct index *index = &input->board->indexes[input->index];
    int32_t value = value_of(&input->value, memory, NULL);
    size_t from = 0, to = 0;
    if (index->rows.count > 0 && index->least <= value && value <= index->most) {
        if (index->dense) {
            const size_t *start = index->starts + ((int64_t)value - index->least);
            from = start[0];
            to = start[1];
        } else {
            from = below(index, value);
            to = below(index, (int64_t)value + 1);
        }
    }
    input->next = index->rows.numbers + from * index->rows.width;
    input->left = to - from;
}

/* Goes to the next row that passes the rest of the filter, where there is one. */
static bool advance(struct input *input, const int32_t *memory) {
    while (input->left > 0) {
        input->row = input->next;
        input->next += input->board->rows.width;
        input->left--;
        if (holds(input->rest, memory, input->row, 0)) return true;
    }
    return false;
}

/* ---- the machine */

static int32_t fault(struct machine *m, enum cause cause, int32_t line) {
    m->cause = cause;
    m->line = line;
    return 0;
}

/* Runs the code, whose first local stands at this place; the other locals and the stack follow. */
static int32_t run(struct machine *m, const struct code *code, int32_t *locals) {
    const struct instr *instrs = code->instrs, *at = instrs;
    int32_t *top = locals + code->locals; /* the first free cell */
    for (;; at++) {
        switch (at->name) {
        case Push: *top++ = at->a; break;
        case Dup: top[0] = top[-1]; top++; break;
        case Drop: top--; break;
        case Loc: *top++ = locals[at->a]; break;
        case SetLoc: locals[at->a] = *--top; break;
        case Mem: *top++ = m->memory[at->a]; break;
        case SetMem: m->memory[at->a] = *--top; break;
        case MemAt:
            if (top[-1] < 0 || top[-1] >= at->c) return fault(m, BAD_INDEX, at->a);
            top[-1] = m->memory[at->b + top[-1]];
            break;
        case SetMemAt:
            top -= 2;
            if (top[0] < 0 || top[0] >= at->c) return fault(m, BAD_INDEX, at->a);
            m->memory[at->b + top[0]] = top[1];
            break;
        case Const: *top++ = constants[at->a]; break;
        case Iter: *top++ = m->iteration; break;
        case Field: *top++ = m->inputs[at->a].row[at->b]; break;
        case FieldAt:
            if (top[-1] < 0 || top[-1] >= at->d) return fault(m, BAD_INDEX, at->a);
            top[-1] = m->inputs[at->b].row[at->c + top[-1]];
            break;
        case Neg:
            if (top[-1] == INT_MIN) return fault(m, OVERFLOWS, at->a);
            top[-1] = -top[-1];
            break;
        case Not: top[-1] = top[-1] == 0; break;
        case Add:
            top--;
            if (__builtin_add_overflow(top[-1], top[0], &top[-1])) return fault(m, OVERFLOWS, at->a);
            break;
        case Sub:
            top--;
            if (__builtin_sub_overflow(top[-1], top[0], &top[-1])) return fault(m, OVERFLOWS, at->a);
            break;
        case Mul:
            top--;
            if (__builtin_mul_overflow(top[-1], top[0], &top[-1])) return fault(m, OVERFLOWS, at->a);
            break;
        case Div:
            top--;
            if (top[0] == 0) return fault(m, DIVISION_BY_ZERO, at->a);
            if (top[0] == -1 && top[-1] == INT_MIN) return fault(m, OVERFLOWS, at->a);
            top[-1] /= top[0];
            break;
        case Rem:
            top--;
            if (top[0] == 0) return fault(m, DIVISION_BY_ZERO, at->a);
            if (top[0] == -1 && top[-1] == INT_MIN) return fault(m, OVERFLOWS, at->a);
            top[-1] %= top[0];
            break;
        case Lt: top--; top[-1] = top[-1] < top[0]; break;
        case Gt: top--; top[-1] = top[-1] > top[0]; break;
        case Le: top--; top[-1] = top[-1] <= top[0]; break;
        case Ge: top--; top[-1] = top[-1] >= top[0]; break;
        case Eq: top--; top[-1] = top[-1] == top[0]; break;
        case Ne: top--; top[-1] = top[-1] != top[0]; break;
        case Jump: at = instrs + at->a - 1; break;
        case JumpZero:
            if (*--top == 0) at = instrs + at->a - 1;
            break;
        case JumpNotZero:
            if (*--top != 0) at = instrs + at->a - 1;
            break;
        case Pay:
            if (m->fuel == 0) return fault(m, FUEL, at->a);
            m->fuel--;
            break;
        case Enter: begin(&m->inputs[at->a], m->entry); break;
        case Next:
            if (!advance(&m->inputs[at->b], m->entry)) at = instrs + at->c - 1;
            else if (m->fuel == 0) return fault(m, FUEL, at->a);
            else m->fuel--;
            break;
        case Leave: break;
        case Send:
            top -= boards[at->a].rows.width;
            add(&boards[at->a].rows, top);
            break;
        case Bear:
            top -= types[at->a].born.width;
            add(&types[at->a].born, top);
            break;
        case Call: {
            const struct code *helper = &helpers[at->b];
            if (m->fuel == 0) return fault(m, FUEL, at->a);
            m->fuel--;
            top -= at->c; /* the arguments become the first locals */
            memset(top + at->c, 0, (helper->locals - (size_t)at->c) * sizeof *top);
            int32_t value = run(m, helper, top);
            if (m->cause != NONE) return 0;
            *top++ = value;
            break;
        }
        case Return: return *--top;
        }
    }
}

/* ---- iterations */

static bool takes(const int32_t *memory, const struct function *function, int32_t iteration) {
    for (size_t k = 0; k < function->earlier_count; k++) {
        if (holds(function->earlier[k], memory, NULL, iteration)) return false;
    }
    return holds(function->condition, memory, NULL, iteration);
}

/* Runs the agents that take the function; the others stay where they are. */
static void run_function(const struct function *function, struct machine *m, int32_t *cells) {
    struct rows *from = &types[function->type].agents[function->from], *to = &types[function->type].agents[function->to];
    size_t size = from->width * sizeof *from->numbers, stay = 0;
    for (size_t k = 0; k < function->input_count; k++) freeze(function->inputs[k].board);
    m->inputs = function->inputs;
    for (size_t k = 0; k < from->count; k++) {
        m->entry = from->numbers + k * from->width;
        if (!takes(m->entry, function, m->iteration)) {
            memmove(from->numbers + stay++ * from->width, m->entry, size);
            continue;
        }
        m->memory = place_behind(to);
        memcpy(m->memory, m->entry, size);
        memset(cells, 0, function->code.locals * sizeof *cells);
        m->fuel = 1000000;
        int32_t value = run(m, &function->code, cells);
        if (m->cause != NONE) {
            fprintf(stderr, "fault: iteration %d: %s: %s at line %d\n", m->iteration, function->name, causes[m->cause],
                m->line);
            exit(3);
        }
        if (value == 0) to->count++;
    }
    from->count = stay;
}

static void iterate(struct machine *m, int32_t *cells) {
    for (size_t k = 0; k < board_count; k++) {
        boards[k].rows.count = 0;
        boards[k].frozen = false;
    }
    for (size_t k = 0; k < function_count; k++) run_function(&functions[k], m, cells);
    for (size_t k = 0; k < board_count; k++) freeze(&boards[k]);
    for (size_t k = 0; k < type_count; k++) {
        for (size_t state = 1; state < types[k].states; state++) add_all(&types[k].agents[0], &types[k].agents[state]);
        add_all(&types[k].agents[0], &types[k].born);
        sort_rows(&types[k].agents[0]);
    }
}

/* ---- files */

/* So many bytes behind the text, which are not counted yet. */
static char *room_behind(struct text *text, size_t length) {
    if (text->room - text->length < length) {
        text->room = 2 * text->room + length;
        text->bytes = sized(text->bytes, text->room, 1);
    }
    return text->bytes + text->length;
}

static void put(struct text *text, const char *word) {
    size_t length = strlen(word);
    memcpy(room_behind(text, length), word, length);
    text->length += length;
}

/* Writes the digits of the number there and gives the place behind them. */
static char *number_written(char *to, int32_t number) {
    char digits[10], *first = digits + sizeof digits;
    uint32_t rest = number < 0 ? -(uint32_t)number : (uint32_t)number;
    do *--first = (char)('0' + rest % 10);
    while ((rest /= 10) > 0);
    if (number < 0) *to++ = '-';
    while (first < digits + sizeof digits) *to++ = *first++;
    return to;
}

static void put_list(struct text *text, const int32_t *numbers, size_t count) {
    char *to = room_behind(text, 12 * count + 2);
    *to++ = '[';
    for (size_t k = 0; k < count; k++) {
        if (k > 0) *to++ = ',';
        to = number_written(to, numbers[k]);
    }
    *to++ = ']';
    text->length = (size_t)(to - text->bytes);
}

/* Puts the rows of a name, the first of its list or a later one. */
static void put_rows(struct text *text, bool first, const char *name, const struct rows *rows) {
    put(text, first ? "{\"name\":\"" : ",{\"name\":\"");
    put(text, name);
    put(text, "\",\"rows\":[");
    for (size_t k = 0; k < rows->count; k++) {
        if (k > 0) put(text, ",");
        put_list(text, rows->numbers + k * rows->width, rows->width);
    }
    put(text, "]}");
}

static void write_iteration(struct text *text, const char *out, int32_t iteration) {
    size_t agents = 0, messages = 0;
    text->length = 0;
    char head[100];
    snprintf(head, sizeof head, "{\"states\":{\"version\":2,\"itno\":%d,\"environment\":", iteration);
    put(text, head);
    put_list(text, constants, constant_count);
    put(text, ",\"agents\":[");
    for (size_t k = 0; k < type_count; k++) {
        put_rows(text, k == 0, types[k].name, &types[k].agents[0]);
        agents += types[k].agents[0].count;
    }
    put(text, "],\"boards\":[");
    for (size_t k = 0; k < board_count; k++) {
        put_rows(text, k == 0, boards[k].name, &boards[k].rows);
        messages += boards[k].rows.count;
    }
    put(text, "]}}\n");
    char path[4096];
    snprintf(path, sizeof path, "%s%d.json", out, iteration);
    FILE *file = fopen(path, "wb");
    if (file == NULL || fwrite(text->bytes, 1, text->length, file) != text->length || fclose(file) != 0) {
        perror(path);
        exit(6);
    }
    printf("iteration %d agents %zu messages %zu\n", iteration, agents, messages);
}

/* ---- tables */

static FILE *tables;

static void read_word(char *word) {
    if (fscanf(tables, "%201s", word) != 1) {
        fputs("indexed: the tables are cut off\n", stderr);
        exit(1);
    }
}

static int32_t read_number(void) {
    char word[WORD];
    read_word(word);
    return (int32_t)strtol(word, NULL, 10);
}

static size_t read_count(void) {
    return (size_t)read_number();
}

/* The place of a word among these names. */
static int read_name(const char *const *names) {
    char word[WORD];
    read_word(word);
    for (int k = 0; names[k] != NULL; k++) {
        if (strcmp(names[k], word) == 0) return k;
    }
    fprintf(stderr, "indexed: %s is not known\n", word);
    exit(1);
}

static struct operand read_operand(void) {
    enum side side = (enum side)read_name(sides);
    return (struct operand){side, read_number()};
}

static struct condition *read_condition(void) {
    struct condition *c = sized(NULL, 1, sizeof *c);
    *c = (struct condition){.test = (enum test)read_name(tests)};
    if (EQ <= c->test && c->test <= GEQ) {
        c->left = read_operand();
        c->right = read_operand();
    } else if (c->test == TIME) {
        c->period = read_number();
        c->left = read_operand();
        c->duration = read_number();
    } else if (c->test != ALWAYS) {
        c->first = read_condition();
        if (c->test != NOT) c->second = read_condition();
    }
    return c;
}

/* The number of the board's index for this equality and this sort, which is a new one where there is none yet. */
static size_t index_for(struct board *board, int32_t equal, int32_t column, int32_t descend) {
    for (size_t k = 0; k < board->index_count; k++) {
        const struct index *index = &board->indexes[k];
        if (index->equal == equal && index->sort == column && index->descend == descend) return k;
    }
    board->indexes = sized(board->indexes, board->index_count + 1, sizeof *board->indexes);
    board->indexes[board->index_count] =
        (struct index){.equal = equal, .sort = column, .descend = descend, .rows.width = board->rows.width};
    return board->index_count++;
}

static struct input read_input(void) {
    struct board *board = &boards[read_count()];
    int32_t equal = read_number();
    struct operand value = read_operand();
    int32_t column = read_number(), descend = read_number();
    return (struct input){board, index_for(board, equal, column, descend), value, read_condition(), NULL, NULL, 0};
}

static struct code read_code(void) {
    struct code code = {.locals = read_count()};
    code.length = read_count();
    code.instrs = sized(NULL, code.length, sizeof *code.instrs);
    for (size_t k = 0; k < code.length; k++) {
        struct instr *i = &code.instrs[k];
        i->name = (enum instruction)read_name(instructions);
        i->a = read_number();
        i->b = read_number();
        i->c = read_number();
        i->d = read_number();
    }
    return code;
}

static struct function read_function(void) {
    struct function f = {.name = ""};
    read_word(f.name);
    f.type = read_count();
    f.from = read_count();
    f.to = read_count();
    f.earlier_count = read_count();
    f.earlier = sized(NULL, f.earlier_count, sizeof *f.earlier);
    for (size_t k = 0; k < f.earlier_count; k++) f.earlier[k] = read_condition();
    f.condition = read_condition();
    f.input_count = read_count();
    f.inputs = sized(NULL, f.input_count, sizeof *f.inputs);
    for (size_t k = 0; k < f.input_count; k++) f.inputs[k] = read_input();
    f.code = read_code();
    return f;
}

static void read_rows(struct rows *rows) {
    size_t count = read_count();
    for (size_t k = 0; k < count; k++) {
        int32_t *row = place_behind(rows);
        for (size_t column = 0; column < rows->width; column++) row[column] = read_number();
        rows->count++;
    }
}

static struct type read_type(void) {
    struct type type = {.name = ""};
    read_word(type.name);
    type.born.width = read_count();
    type.states = read_count();
    type.agents = sized(NULL, type.states, sizeof *type.agents);
    for (size_t k = 0; k < type.states; k++) type.agents[k] = (struct rows){.width = type.born.width};
    read_rows(&type.agents[0]);
    return type;
}

/* Reads the tables and gives the number of the last iteration. */
static int32_t read_tables(void) {
    int32_t iteration = read_number();
    constant_count = read_count();
    constants = sized(NULL, constant_count, sizeof *constants);
    for (size_t k = 0; k < constant_count; k++) constants[k] = read_number();
    board_count = read_count();
    boards = sized(NULL, board_count, sizeof *boards);
    for (size_t k = 0; k < board_count; k++) {
        boards[k] = (struct board){.name = ""};
        read_word(boards[k].name);
        boards[k].rows.width = read_count();
    }
    type_count = read_count();
    types = sized(NULL, type_count, sizeof *types);
    for (size_t k = 0; k < type_count; k++) types[k] = read_type();
    helper_count = read_count();
    helpers = sized(NULL, helper_count, sizeof *helpers);
    for (size_t k = 0; k < helper_count; k++) helpers[k] = read_code();
    function_count = read_count();
    functions = sized(NULL, function_count, sizeof *functions);
    for (size_t k = 0; k < function_count; k++) functions[k] = read_function();
    return iteration;
}

/* How many cells a run takes at most: no helper is open twice, and each instruction pushes at most one value. */
static size_t most_cells(void) {
    size_t cells = 0;
    for (size_t k = 0; k < helper_count; k++) cells += helpers[k].locals + helpers[k].length;
    for (size_t k = 0; k < function_count; k++) cells += functions[k].code.locals + functions[k].code.length;
    return cells;
}

int main(int count, char **words) {
    if (count != 4 || (tables = fopen(words[1], "r")) == NULL) {
        fputs("usage: indexed TABLES OUT N\n", stderr);
        return 2;
    }
    struct machine m = {.iteration = read_tables()};
    struct text text = {NULL, 0, 0};
    int32_t *cells = sized(NULL, most_cells(), sizeof *cells);
    for (int n = atoi(words[3]); n > 0; n--) {
        m.iteration++;
        iterate(&m, cells);
        write_iteration(&text, words[2], m.iteration);
    }
    return 0;
}
