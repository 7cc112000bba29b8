// A helper, which other files call.
int within(int number, int most) { if (number > most) return most; return number; }
