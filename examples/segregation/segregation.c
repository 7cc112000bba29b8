/* As many vacancies as the office has room for in its array. */
#define ROOM 100

/* The cell in this column and row of the town, whose edges meet. */
int cell_at(int column, int row) {
    return (row + SIDE) % SIDE * SIDE + (column + SIDE) % SIDE;
}

/* A household shows its kind to the eight cells around it. */
int greet() {
    int across;
    int down;
    for (down = -1; down <= 1; down++) {
        for (across = -1; across <= 1; across++) {
            if (across != 0 || down != 0) {
                int cell = cell_at(CELL % SIDE + across, CELL / SIDE + down);
                add_beside_message(cell, KIND);
            }
        }
    }
    return 0;
}

/* It is unhappy where less than the wished part of its neighbours is of its kind. Then it draws a lot. */
int look() {
    NEIGHBOURS = 0;
    ALIKE = 0;
    START_BESIDE_MESSAGE_LOOP
        NEIGHBOURS++;
        if (beside_message->kind == KIND) ALIKE++;
    FINISH_BESIDE_MESSAGE_LOOP
    UNHAPPY = ALIKE * 100 < WISH * NEIGHBOURS;
    if (UNHAPPY) {
        SEED = next_seed(SEED);
        int lot = drawn(SEED);
        add_leaving_message(lot, CELL);
    }
    return 0;
}

/* A vacancy draws a lot too. */
int advertise() {
    SEED = next_seed(SEED);
    int lot = drawn(SEED);
    add_vacant_message(lot, CELL);
    return 0;
}

/* The household with the least lot gets the vacancy with the least lot, and so on. */
int assign() {
    int vacancies = 0;
    MOVES = 0;
    START_VACANT_MESSAGE_LOOP
        if (vacancies == ROOM) break;
        FREE[vacancies] = vacant_message->cell;
        vacancies++;
    FINISH_VACANT_MESSAGE_LOOP
    START_LEAVING_MESSAGE_LOOP
        if (MOVES == vacancies) break;
        add_key_message(leaving_message->cell, FREE[MOVES]);
        MOVES++;
    FINISH_LEAVING_MESSAGE_LOOP
    return 0;
}

/* Who gets a key leaves a new vacancy behind, with a seed of its own. */
int move() {
    START_KEY_MESSAGE_LOOP
        SEED = next_seed(SEED);
        int child = child_seed(SEED);
        add_Vacancy_agent(CELL, child);
        CELL = key_message->to;
    FINISH_KEY_MESSAGE_LOOP
    return 0;
}

/* A vacancy whose key was given away is none any more. */
int fill() {
    START_KEY_MESSAGE_LOOP
        return 1;
    FINISH_KEY_MESSAGE_LOOP
    return 0;
}
