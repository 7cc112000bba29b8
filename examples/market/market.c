/* As many offers as the arrays of the exchange have room for. */
#define ROOM 40

int make_offer() {
    add_offer_message(ASK, ID);
    return 0;
}

int make_bid() {
    add_bid_message(PAY, ID);
    return 0;
}

/* The cheapest offer is paired with the highest bid, the next with the next, as long as the bid
   pays for the offer. All deals of the day are made at one price, half way between the last pair. */
int clear() {
    int offers = 0;
    int i;
    DEALS = 0;
    START_OFFER_MESSAGE_LOOP
        if (offers == ROOM) break;
        ASKED[offers] = offer_message->price;
        SELLER[offers] = offer_message->seller;
        offers++;
    FINISH_OFFER_MESSAGE_LOOP
    START_BID_MESSAGE_LOOP
        if (DEALS == offers || bid_message->price < ASKED[DEALS]) break;
        PRICE = (bid_message->price + ASKED[DEALS]) / 2;
        BUYER[DEALS] = bid_message->buyer;
        DEALS++;
    FINISH_BID_MESSAGE_LOOP
    for (i = 0; i < DEALS; i++) {
        add_deal_message(SELLER[i], PRICE);
        add_deal_message(BUYER[i], PRICE);
    }
    return 0;
}

/* Who sold asks for 1 more tomorrow, who did not for a step less, and never for less than the cost. */
int sell() {
    int sold = 0;
    START_DEAL_MESSAGE_LOOP
        sold = 1;
        EARNED += deal_message->price - COST;
    FINISH_DEAL_MESSAGE_LOOP
    if (sold) ASK++;
    else ASK -= STEP;
    if (ASK < COST) ASK = COST;
    return 0;
}

/* Who bought bids 1 less tomorrow, who did not a step more, and never more than it is worth. */
int buy() {
    int bought = 0;
    START_DEAL_MESSAGE_LOOP
        bought = 1;
        GAINED += WORTH - deal_message->price;
    FINISH_DEAL_MESSAGE_LOOP
    if (bought) PAY--;
    else PAY += STEP;
    if (PAY > WORTH) PAY = WORTH;
    return 0;
}
