/* Tests tns_cost and tns_cost_2048ths against a plain model over the costs of T (costs.h), through the
 * library that it is linked with.
 *
 * - Accepted calls: each weighting, filter count and pair of orders, 486 in all, with 2,500 draws of sixteen
 *   indices for each. Both parts, the bits and every other number of both answers must be the model's.
 * - Refused calls: any bytes as numbers, lists of 0 to 4 orders and of 0 to 20 indices, so that several
 *   refusals often apply. Both calls must answer the model's refusal, and the parts must be as they were.
 * - The words beside the parts must never change.
 *
 * It also counts how often each refusal was the answer, and the accepted calls that would have other bits if
 * both filters were rounded up together. If one of these never occurred, the comparison could not tell that
 * error, so this fails too. Prints the counts. Status 1 if anything is wrong. */
#include <stdbool.h>
#include <stdio.h>
#include <string.h>

#include "costs.h"
#include "tns.h"

enum { DRAWS = 2500, REFUSED = 500000, SHOWN = 5 };

static uint64_t state = UINT64_C(0x9E3779B97F4A7C15);

/* A number below a limit, by xorshift. */
static uint32_t below(uint32_t limit)
{
    state ^= state << 13;
    state ^= state >> 7;
    state ^= state << 17;
    return (uint32_t)((state >> 32) * limit >> 32);
}

/* What a call is given. */
static struct side {
    uint8_t weighting, filters, orders[4], indices[20];
    size_t orders_len, indices_len;
} side;

/* What it must answer and leave. */
struct wanted {
    tns_answer answer;
    uint32_t parts[2];
};

/* What one filter costs, in 2048ths of a bit. */
static uint32_t filter_cost(int filter)
{
    int order = side.orders[filter];
    uint32_t cost = order == 0 ? 0 : ORDER_COST[side.weighting][order - 1];
    for (int place = 0; place < order; place++)
        cost += INDEX_COST[place][side.indices[8 * filter + place]];
    return cost;
}

/* The whole bits of a cost. */
static uint32_t rounded_up(uint32_t cost)
{
    return cost / 2048 + (cost % 2048 != 0);
}

/* The lowest place whose number is over a limit, or -1. */
static int over(const uint8_t *numbers, int count, uint8_t limit)
{
    for (int i = 0; i < count; i++)
        if (numbers[i] > limit) return i;
    return -1;
}

static struct wanted model(const uint32_t found[2])
{
    struct wanted w = {{0, 0, 0, 0}, {found[0], found[1]}};
    int order = over(side.orders, 2, 8), index = over(side.indices, 16, 16);
    if (side.orders_len != 2 || side.indices_len != 16) {
        w.answer.refusal = 4;
    } else if (side.filters > 2) {
        w.answer.refusal = 5;
    } else if (order >= 0) {
        w.answer = (tns_answer){6, (uint16_t)order, side.orders[order], 0};
    } else if (index >= 0) {
        w.answer = (tns_answer){7, (uint16_t)index, side.indices[index], 0};
    } else if (side.weighting > 1) {
        w.answer.refusal = 8;
    } else {
        for (int f = 0; f < 2; f++) {
            w.parts[f] = f < side.filters ? filter_cost(f) : 0;
            if (f < side.filters) w.answer.bits = (uint16_t)(w.answer.bits + 1 + rounded_up(w.parts[f]));
        }
    }
    return w;
}

static bool is_same(tns_answer a, tns_answer b)
{
    return a.refusal == b.refusal && a.place == b.place && a.found == b.found && a.bits == b.bits;
}

static int wrong, apart, given[9];
static uint32_t most;

/* Both calls on the side data that was drawn. */
static void compare(void)
{
    const uint32_t lent[4] = {below(UINT32_MAX), below(UINT32_MAX), below(UINT32_MAX), below(UINT32_MAX)};
    uint32_t left[4];
    memcpy(left, lent, sizeof left);
    struct wanted w = model(lent + 1);
    tns_answer plain = tns_cost(side.weighting, side.filters, side.orders, side.orders_len, side.indices,
                                side.indices_len);
    tns_answer exact = tns_cost_2048ths(side.weighting, side.filters, side.orders, side.orders_len,
                                        side.indices, side.indices_len, left + 1);
    if (!is_same(plain, w.answer) || !is_same(exact, w.answer) || left[1] != w.parts[0] ||
        left[2] != w.parts[1] || left[0] != lent[0] || left[3] != lent[3]) {
        if (wrong++ < SHOWN)
            printf("costs: weighting %d, %d filters, orders %d and %d: bits %d, %d for %d; "
                   "parts %u and %u for %u and %u; refusal %d, %d for %d\n",
                   side.weighting, side.filters, side.orders[0], side.orders[1], plain.bits, exact.bits,
                   w.answer.bits, left[1], left[2], w.parts[0], w.parts[1], plain.refusal, exact.refusal,
                   w.answer.refusal);
    }
    given[w.answer.refusal]++;
    if (w.answer.refusal != 0) return;
    for (int f = 0; f < 2; f++)
        if (left[1 + f] > most) most = left[1 + f];
    apart += w.answer.bits != side.filters + rounded_up(w.parts[0] + w.parts[1]);
}

/* Sixteen indices, and some behind them for a list that is too long. */
static void draw_indices(uint32_t limit)
{
    for (int i = 0; i < 20; i++) side.indices[i] = (uint8_t)below(limit);
}

int main(void)
{
    int accepted = 0, refused = 0;
    side.orders_len = 2, side.indices_len = 16;
    for (int choice = 0; choice < 2 * 3 * 9 * 9; choice++) {
        side.weighting = (uint8_t)(choice % 2);
        side.filters = (uint8_t)(choice / 2 % 3);
        side.orders[0] = (uint8_t)(choice / 6 % 9);
        side.orders[1] = (uint8_t)(choice / 54);
        for (int draw = 0; draw < DRAWS; draw++, accepted++) {
            draw_indices(17);
            compare();
        }
    }
    while (refused < REFUSED) {
        static const uint32_t limits[] = {17, 18, 20, 256};
        side.weighting = (uint8_t)below(below(2) ? 2 : 256);
        side.filters = (uint8_t)below(below(4) ? 3 : 256);
        for (int f = 0; f < 4; f++) side.orders[f] = (uint8_t)below(below(4) ? 9 : 256);
        draw_indices(limits[below(4)]);
        side.orders_len = below(8) ? 2 : below(5);
        side.indices_len = below(8) ? 16 : below(21);
        const uint32_t none[2] = {0, 0};
        if (model(none).answer.refusal == 0) continue;
        compare();
        refused++;
    }
    printf("costs: %d accepted and %d refused calls of each kind, %d wrong; the largest part is %u\n",
           accepted, refused, wrong, most);
    printf("costs: %d of the accepted have other bits if both filters are rounded up together\n", apart);
    bool is_missing = false;
    for (int number = 4; number <= 8; number++) {
        printf("costs: refusal %d was the answer %d times\n", number, given[number]);
        is_missing |= given[number] == 0;
    }
    return wrong != 0 || apart == 0 || is_missing || most > 83 * 2048;
}
