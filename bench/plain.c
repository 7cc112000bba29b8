/* A plain stack interpreter: what the speed of flame_machine is measured beside. It runs the codes of
   crates/flame_bench/src/codes.rt, instruction for instruction, with the same tests at run time: fuel, overflow,
   divisors and indexes of arrays. The word is the number of turns of the first loop; the others turn a tenth as
   often. */
#include <limits.h>
#include <stdint.h>
#include <stdio.h>
#include <stdlib.h>
#include <string.h>
#include <time.h>

enum name { PUSH, LOC, SET_LOC, MEM, SET_MEM, MEM_AT, SET_MEM_AT, ADD, REM, LT, JUMP, JUMP_NOT_ZERO, PAY, CALL,
    RETURN };
enum cause { NONE, OVERFLOWS, DIVISION_BY_ZERO, BAD_INDEX, FUEL };

struct instr {
    enum name name;
    int32_t a;
    uint32_t b, c, d;
};

struct code {
    const struct instr *instrs;
    size_t locals;
};

struct machine {
    const struct code *helpers;
    int32_t *memory;
    uint32_t fuel;
    enum cause cause;
    int32_t line;
};

static int32_t fault(struct machine *m, enum cause cause, int32_t line) {
    m->cause = cause;
    m->line = line;
    return 0;
}

/* Runs the code, whose first local stands at this place; the other locals and the stack follow. */
static int32_t run(struct machine *m, const struct code *code, int32_t *locals) {
    const struct instr *instrs = code->instrs, *at = instrs;
    int32_t *top = locals + code->locals; /* the first free cell */
    for (;; at++) {
        switch (at->name) {
        case PUSH: *top++ = at->a; break;
        case LOC: *top++ = locals[at->a]; break;
        case SET_LOC: locals[at->a] = *--top; break;
        case MEM: *top++ = m->memory[at->a]; break;
        case SET_MEM: m->memory[at->a] = *--top; break;
        case MEM_AT: {
            int32_t index = top[-1];
            if (index < 0 || (uint32_t)index >= at->c) return fault(m, BAD_INDEX, at->a);
            top[-1] = m->memory[at->b + (uint32_t)index];
            break;
        }
        case SET_MEM_AT: {
            int32_t value = *--top, index = *--top;
            if (index < 0 || (uint32_t)index >= at->c) return fault(m, BAD_INDEX, at->a);
            m->memory[at->b + (uint32_t)index] = value;
            break;
        }
        case ADD:
            top--;
            if (__builtin_add_overflow(top[-1], top[0], &top[-1])) return fault(m, OVERFLOWS, at->a);
            break;
        case REM:
            top--;
            if (top[0] == 0) return fault(m, DIVISION_BY_ZERO, at->a);
            if (top[0] == -1 && top[-1] == INT_MIN) return fault(m, OVERFLOWS, at->a);
            top[-1] %= top[0];
            break;
        case LT: top--; top[-1] = top[-1] < top[0]; break;
        case JUMP: at = instrs + at->a - 1; break;
        case JUMP_NOT_ZERO:
            if (*--top != 0) at = instrs + at->a - 1;
            break;
        case PAY:
            if (m->fuel == 0) return fault(m, FUEL, at->a);
            m->fuel--;
            break;
        case CALL: {
            const struct code *helper = &m->helpers[at->b];
            if (m->fuel == 0) return fault(m, FUEL, at->a);
            m->fuel--;
            top -= at->c; /* the arguments become the first locals */
            memset(top + at->c, 0, (helper->locals - at->c) * sizeof *top);
            int32_t value = run(m, helper, top);
            if (m->cause != NONE) return 0;
            *top++ = value;
            break;
        }
        case RETURN: return *--top;
        }
    }
}

/* int i; int s = 0; for (i = 0; i < TURNS; i++) BODY X = s; return 0; */
#define HEAD(end) {PUSH, 0}, {SET_LOC, 0}, {PUSH, 0}, {SET_LOC, 1}, {PUSH, 0}, {SET_LOC, 0}, {JUMP, (end) + 4}, {PAY, 1}
#define TAIL(turns) {LOC, 0}, {PUSH, 1}, {ADD, 1}, {SET_LOC, 0}, {LOC, 0}, {PUSH, turns}, {LT}, {JUMP_NOT_ZERO, 7}, \
    {LOC, 1}, {SET_MEM, 0}, {PUSH, 0}, {RETURN}, {PUSH, 0}, {RETURN}

/* Runs the code, of which so many instructions run in a turn, and 15 outside of them. */
static void measure(const char *name, const struct instr *instrs, size_t locals, int32_t turns, int64_t in_turn) {
    /* int rest(int n) { return n % 7; } */
    static const struct instr rest[] = {{LOC, 0}, {PUSH, 7}, {REM, 1}, {RETURN}, {PUSH, 0}, {RETURN}};
    static int32_t cells[1000], memory[8];
    struct code helpers[] = {{rest, 1}}, code = {instrs, locals};
    struct machine m = {helpers, memory, UINT32_MAX, NONE, 0};
    memset(cells, 0, sizeof cells);
    memset(memory, 0, sizeof memory);
    clock_t begun = clock();
    int32_t value = run(&m, &code, cells);
    double seconds = (double)(clock() - begun) / CLOCKS_PER_SEC;
    printf("%s: ", name);
    if (m.cause != NONE) printf("cause %d at line %d", m.cause, m.line);
    else {
        printf("%s [", value == 0 ? "memory" : "removed");
        for (int column = 0; column < 8; column++) printf(column ? ", %d" : "%d", memory[column]);
        printf("] left %u", m.fuel);
    }
    if (seconds > 0.001)
        printf("; %.0f milliseconds, %.0f million instructions a second", seconds * 1000,
            (double)(15 + turns * in_turn) / seconds / 1000000);
    printf("\n");
}

int main(int count, char **words) {
    int32_t turns = count > 1 ? atoi(words[1]) : 1000, fewer = turns / 10;
    /* s = s + i % 7; */
    struct instr sum[] = {HEAD(14), {LOC, 1}, {LOC, 0}, {PUSH, 7}, {REM, 1}, {ADD, 1}, {SET_LOC, 1}, TAIL(turns)};
    /* { int t = rest(i); s = s + t; } */
    struct instr calls[] = {HEAD(15), {LOC, 0}, {CALL, 1, 0, 1}, {SET_LOC, 2}, {LOC, 1}, {LOC, 2}, {ADD, 1},
        {SET_LOC, 1}, TAIL(fewer)};
    /* H[i % 7] = H[i % 7] + 1; */
    struct instr array[] = {HEAD(18), {LOC, 0}, {PUSH, 7}, {REM, 1}, {LOC, 0}, {PUSH, 7}, {REM, 1}, {MEM_AT, 1, 1, 7},
        {PUSH, 1}, {ADD, 1}, {SET_MEM_AT, 1, 1, 7}, TAIL(fewer)};
    measure("sum", sum, 2, turns, 15);
    measure("helper", calls, 3, fewer, 20);
    measure("element", array, 2, fewer, 19);
    return 0;
}
