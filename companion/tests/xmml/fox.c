#include "header.h"
#include "Fox_agent_header.h"
#define COST 1 /* a day's walk; "quotes", malloc() and 0.5 in a comment are none */

/* Takes the first hare of its list. */
int fox_hunt()
{
    int n;
    int found = 0;
    START_HARE_AT_MESSAGE_LOOP
        if (found == 0) {
            for (n = 2; n > 0; n--) CAUGHT[n] = CAUGHT[n - 1];
            CAUGHT[0] = hare_at_message->id;
            AT_X = hare_at_message->at_x;
            AT_Y = hare_at_message->at_y;
            found = within(hare_at_message->weight, SIDE * MEAL);
            add_catch_message(hare_at_message->id, CAUGHT);
        }
    FINISH_HARE_AT_MESSAGE_LOOP
    HOME_WALKED[AT_X % 4] += 1;
    if (found > 0) set_energy(get_energy() + found);
    else ENERGY = ENERGY - COST;
    return 0;
}

int fox_age(void)
{
    ENERGY -= COST;
    if (!(ENERGY >= -5 && 1)) return 1;
    return 0;
}

int fox_sleep() { return 0; }
