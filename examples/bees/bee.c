/* A bee flies to the nearest flower that it can smell, and asks it for a sip when it is there. */
int seek() {
    int nearest = SIGHT + 1;
    int flower = -1;
    int to_x = AT_X;
    int to_y = AT_Y;
    START_SCENT_MESSAGE_LOOP
        int steps = steps_between(AT_X, AT_Y, scent_message->at_x, scent_message->at_y);
        if (steps < nearest) {
            nearest = steps;
            flower = scent_message->flower;
            to_x = scent_message->at_x;
            to_y = scent_message->at_y;
        }
    FINISH_SCENT_MESSAGE_LOOP
    if (flower == -1) {
        AT_X = step_towards(AT_X, SIDE / 2);
        AT_Y = step_towards(AT_Y, SIDE / 2);
        return 0;
    }
    if (nearest == 0) add_ask_message(flower, ID);
    AT_X = step_towards(AT_X, to_x);
    AT_Y = step_towards(AT_Y, to_y);
    return 0;
}

int drink() {
    START_SIP_MESSAGE_LOOP
        LOAD++;
    FINISH_SIP_MESSAGE_LOOP
    return 0;
}

/* A bee with a full load flies to its hive and leaves the honey there. */
int go_home() {
    if (AT_X == HIVE_X && AT_Y == HIVE_Y) {
        HONEY += LOAD;
        LOAD = 0;
        return 0;
    }
    AT_X = step_towards(AT_X, HIVE_X);
    AT_Y = step_towards(AT_Y, HIVE_Y);
    return 0;
}
