/* Helpers that the other function files call. Each sees its parameters and the constants alone. */

int size_of(int number) {
    if (number < 0) return -number;
    return number;
}

/* How many steps it is from one point to another, across and down. */
int steps_between(int x, int y, int to_x, int to_y) {
    int across = size_of(to_x - x);
    int down = size_of(to_y - y);
    return across + down;
}

/* One step from a number towards another. */
int step_towards(int number, int goal) {
    if (number < goal) return number + 1;
    if (number > goal) return number - 1;
    return number;
}
