// The table in one sweep over the release ticks of all tasks, greatest rank first: the least work known.
#include "plain.h"

struct place {
    uint32_t period, budget, next, left;
    uint32_t *cell;
    int task;
};

static uint32_t sort(const struct sheet *s, const struct plan *plan, struct place *places) {
    for (uint32_t i = 0; i < s->count; i++) {
        uint32_t q = i;
        for (; 0 < q && s->tasks[places[q - 1].task].rank < s->tasks[i].rank; q--)
            places[q] = places[q - 1];
        places[q] = (struct place){s->tasks[i].period, s->tasks[i].budget, 0, 0, plan->rows[i], i};
    }
    return s->count;
}

static int fill(const struct sheet *s, struct plan *plan) {
    struct place places[MOST_TASKS];
    uint32_t live = sort(s, plan, places);
    int late = -1;
    plan->idle = 0;
    for (uint32_t at = 0, soon; at < plan->hyperperiod; at = soon) {
        soon = plan->hyperperiod;
        for (uint32_t q = 0; q < live; q++) {
            struct place *p = &places[q];
            if (p->next == at) {
                if (0 < p->left) {
                    late = p->task;
                    live = q;
                    break;
                }
                p->left = p->budget;
                p->next += p->period;
            }
            if (p->next < soon)
                soon = p->next;
        }
        uint32_t gap = soon - at, now = at;
        for (uint32_t q = 0; q < live && 0 < gap; q++) {
            struct place *p = &places[q];
            if (p->left == 0)
                continue;
            uint32_t run = p->left < gap ? p->left : gap;
            p->left -= run;
            gap -= run;
            now += run;
            if (p->left == 0)
                *p->cell++ = now - (p->next - p->period);
        }
        plan->idle += gap;
    }
    for (uint32_t q = 0; q < live; q++)
        if (0 < places[q].left) {
            late = places[q].task;
            break;
        }
    return late;
}
