#include <stdio.h>
#include "my_library.h"
#define STEP (5)
#define GOOD 5
#ifdef GOOD
int counter = 0;
double weight(double x);
struct pair { int x; int y; };
int table[3] = {1, 2, 3};

static const int limit = 7;

void rest()
{
    return;
}

int area(int * low, int size[2])
{
    return *low + size[0];
}

int hunt()
{
    double share = 0.5;
    long count = 12L;
    unsigned int tries = 017;
    char letter = 'x';
    int rows[3], k, more[2];
    int * place = &rows[1];
    pair_array list;
    later den;
    printf("%d of %f\n", count, 0.25);
    ENERGY = (int)sqrt(ENERGY) + abs(k);
    if (rand() % 6 == 0) k = 1;
    k = ENERGY > 3 ? 1 : 0;
    switch (k) {
        case 1: k = 2; break;
        default: break;
    }
    AT.x = hare_message->den.z;
    place->next = hare_message->cell;
    add_int(&SEEN, 4);
    init_pair_array(&list);
    free_int_array(&SEEN);
    k = SEEN.size;
    k = k << 2 | 1;
    for (k = 0; k < 3; k++)
        if (k == 2) ENERGY++;
    if (k = 3) ENERGY--;
    ENERGY = 2 + twice(k);
    set_energy(twice(k));
    twice(k);
    ENERGY = twice(k);
    int own = twice(k), other = twice(own);
    gsl_ran_flat(1, 2);
    k = 3000000000;
    goto end;
    START_HARE_MESSAGE_LOOP
        while (k > 0) k--;
    FINISH_HARE_MESSAGE_LOOP
    free(place);
    return (double)k;
}

int twice(int n) { return n * n; }
/* the end
