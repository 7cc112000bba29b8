#define BARE 0
#define TREE 1
#define FIRE 2

/* A burning patch warms its neighbours, is seen from the tower, and is bare then. At the edge of
   the forest a place of the array has -1 for a neighbour that is not there. */
int burn() {
    int i;
    for (i = 0; i < 4; i++) {
        if (NEAR[i] >= 0) add_heat_message(NEAR[i]);
    }
    add_blaze_message(CELL);
    STATE = BARE;
    return 0;
}

/* On a bare patch a tree grows once in so many months. */
int grow() {
    SEED = next_seed(SEED);
    int grows = chance_of(SEED, 1, GROWTH);
    if (grows) STATE = TREE;
    return 0;
}

/* The filter lets through the heat for this patch alone; one message of it is enough. */
int catch_fire() {
    START_HEAT_MESSAGE_LOOP
        STATE = FIRE;
        break;
    FINISH_HEAT_MESSAGE_LOOP
    return 0;
}

/* In the three months of summer lightning strikes a tree once in so many times. */
int strike() {
    SEED = next_seed(SEED);
    int strikes = chance_of(SEED, 1, LIGHTNING);
    if (strikes) STATE = FIRE;
    return 0;
}

/* The tower counts the fires of the month in each row of the forest, and all that there were. */
int watch() {
    int i;
    for (i = 0; i < SIDE; i++) ROWS[i] = 0;
    START_BLAZE_MESSAGE_LOOP
        ROWS[blaze_message->cell / SIDE]++;
        BURNT++;
    FINISH_BLAZE_MESSAGE_LOOP
    return 0;
}
