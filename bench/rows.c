// The table row by row: for each task a walk over the releases of its level, with the tick by which the level's work is done.
#include "plain.h"

struct level {
    uint32_t size, periods[MOST_TASKS], budgets[MOST_TASKS];
};

static void gather(const struct sheet *s, uint32_t i, struct level *level) {
    level->size = 0;
    for (uint32_t j = 0; j < s->count; j++)
        if (s->tasks[i].rank <= s->tasks[j].rank) {
            level->periods[level->size] = s->tasks[j].period;
            level->budgets[level->size] = s->tasks[j].budget;
            level->size++;
        }
}

// Fills a row; false where its task is late. `rests` is left with the ticks in which the level has nothing to do.
static bool fill_row(const struct level *level, uint32_t period, uint32_t hyperperiod, uint32_t *row, uint32_t *rests) {
    uint32_t next[MOST_TASKS] = {0};
    uint32_t clear = 0, release = 0;
    *rests = 0;
    for (uint32_t at = 0, soon; at < hyperperiod; at = soon) {
        soon = hyperperiod;
        for (uint32_t j = 0; j < level->size; j++) {
            if (next[j] == at) {
                clear += level->budgets[j];
                next[j] += level->periods[j];
            }
            if (next[j] < soon)
                soon = next[j];
        }
        if (soon < clear) {
            if (release + period <= soon)
                return false;
        } else {
            if (release <= at) {
                *row++ = clear - release;
                release += period;
            }
            *rests += soon - clear;
            clear = soon;
        }
    }
    return true;
}

static int fill(const struct sheet *s, struct plan *plan) {
    int late = -1;
    uint32_t low = 0;
    for (uint32_t i = 0; i < s->count; i++) {
        struct level level;
        uint32_t rests;
        gather(s, i, &level);
        if (!fill_row(&level, s->tasks[i].period, plan->hyperperiod, plan->rows[i], &rests)) {
            if (late < 0 || s->tasks[late].rank < s->tasks[i].rank)
                late = i;
        } else if (s->tasks[i].rank <= s->tasks[low].rank) {
            low = i;
            plan->idle = rests;
        }
    }
    return late;
}
