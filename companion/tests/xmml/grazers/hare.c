int hare_show() {
    add_hare_at_message(ID, AT_X, AT_Y, WEIGHT);
    return 0;
}

int hare_flee() {
    START_CATCH_MESSAGE_LOOP
        return 1;
    FINISH_CATCH_MESSAGE_LOOP
    WEIGHT++;
    return 0;
}
