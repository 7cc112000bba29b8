#define WELL 0
#define SICK 1
#define OVER 2

/* Each day a person goes to one of the places. */
int go_out() {
    SEED = next_seed(SEED);
    PLACE = number_below(SEED, PLACES);
    return 0;
}

/* Who is sick coughs there. */
int spread() {
    add_cough_message(PLACE);
    return 0;
}

/* Who is well hears all that cough in the same place, and may fall sick by each of them. */
int meet() {
    START_COUGH_MESSAGE_LOOP
        SEED = next_seed(SEED);
        int falls_sick = chance_of(SEED, RISK, 100);
        if (falls_sick) {
            HEALTH = SICK;
            DAYS = 0;
            break;
        }
    FINISH_COUGH_MESSAGE_LOOP
    return 0;
}

int recover() {
    DAYS++;
    if (DAYS >= ILLNESS) HEALTH = OVER;
    return 0;
}
