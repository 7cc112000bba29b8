/* In the sixth hour of a day there is new nectar. */
int bloom() {
    NECTAR += 4;
    if (NECTAR > MOST) NECTAR = MOST;
    return 0;
}

int smell() {
    add_scent_message(ID, AT_X, AT_Y);
    return 0;
}

/* Bees that sit on the flower get a sip each, the one with the least number first, as long as there is nectar. */
int give() {
    START_ASK_MESSAGE_LOOP
        if (NECTAR == 0) break;
        NECTAR--;
        add_sip_message(ask_message->bee);
    FINISH_ASK_MESSAGE_LOOP
    return 0;
}
