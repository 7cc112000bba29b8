/* A spider under a flower counts the bees that sit on it. */
int lurk() {
    START_ASK_MESSAGE_LOOP
        SEEN++;
    FINISH_ASK_MESSAGE_LOOP
    return 0;
}
