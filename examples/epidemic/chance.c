/* Numbers that look like chance, from a variable `seed` in an agent's memory. Copy this file into the folder of your model
   and name it among its function files. Go on to the next seed before each number and before each child:

       SEED = next_seed(SEED);
       int place = number_below(SEED, 150);      0 to 149, each as likely as the others
       SEED = next_seed(SEED);
       int falls_ill = chance_of(SEED, 6, 100);  1 with a chance of 6 in 100, else 0
       SEED = next_seed(SEED);
       int child = child_seed(SEED);             the seed of an agent that is born
       add_Fox_agent(CELL, child);

   Each number of int is a seed like any other, 0 and those below it too. The seed itself is a counter and looks like no
   chance: do not use it as a number.

   The method: seeds are counted up by a fixed step, and a number is the seed and the number of the iteration, mixed by a
   keyed permutation. So SplitMix does it (Steele, Lea and Flood 2014); the permutation is a Feistel network (Luby and
   Rackoff 1988) that squares, as does psdes in Numerical Recipes (Press and others, section 7.5). Seeds of children are
   mixed with other keys than numbers are, so that neither tells of the other. */

/* The sum of a number and one that is not below 0. Above the greatest int it goes on from the least. */
int chance_sum(int number, int more) {
    if (number > 2147483647 - more) return number - 2147483647 + (more - 2147483647) - 2;
    return number + more;
}

/* A permutation of the numbers of int for each key, 0 to 8000: four rounds over the upper and the lower 16 bits. A product is
   at most 32768 * 65535, which is a number of int. */
int chance_rounds(int number, int key) {
    int high = number / 65536 + 32768;
    int low = number % 65536;
    if (low < 0) {
        high--;
        low += 65536;
    }
    high = (high + 65536 + (low - 32768) * (low - key) % 65521) % 65536;
    low = (low + 65536 + (high - 32768) * (high - key - 7919) % 65521) % 65536;
    high = (high + 65536 + (low - 32768) * (low - key - 15859) % 65521) % 65536;
    low = (low + 65536 + (high - 32768) * (high - key - 23789) % 65521) % 65536;
    return (high - 32768) * 65536 + low;
}

/* A seed and the iteration, mixed: a permutation of the seeds in each iteration, and of the iterations for each seed. */
int chance_mixing(int seed, int key) {
    int mixed = chance_rounds(seed, key);
    mixed = chance_sum(mixed, iteration_loop);
    mixed = chance_rounds(mixed, key + 3001);
    return mixed;
}

/* The seed that follows. It comes back to the first one after 4294967296 steps, from wherever it begins. */
int next_seed(int seed) {
    int next = chance_sum(seed, 1640531527);
    return next;
}

/* The number of a seed, 0 to 2147483647. */
int drawn(int seed) {
    int number = chance_mixing(seed, 1013);
    if (number < 0) number = number + 2147483647 + 1;
    return number;
}

/* The number of a seed, 0 to count - 1, each as likely as the others; count is 1 or more. What is left over at the upper end
   is drawn again. */
int number_below(int seed, int count) {
    int most = 2147483647 - 2147483647 % count;
    int number = drawn(seed);
    int i;
    for (i = 0; i < 40 && number >= most; i++) {
        seed = chance_rounds(seed, 7001);
        number = drawn(seed);
    }
    return number % count;
}

/* 1 with a chance of part in whole, else 0; whole is 1 or more. */
int chance_of(int seed, int part, int whole) {
    int number = number_below(seed, whole);
    return number < part;
}

/* The seed of a child. In one iteration two different seeds never have the same child. */
int child_seed(int seed) {
    int child = chance_mixing(seed, 2029);
    return child;
}
