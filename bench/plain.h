// The report as one would write it by hand in C, to compare with. A program that includes this has a way to fill the table.
//
//     PROGRAM report|bound|bound-twin|table|figures|quick|quick-twin|read < SHEET
//     PROGRAM replay < SHEET 3< LOG
//
// `report`, `bound` and `replay` print what the proved programs of these names print, and `figures` the sampling figure of the first chain, its release
// and its bound. The others print one number: the idle ticks, the first chain's bound without a table, the task count. With `-twin` the tasks
// that outrank one are gathered before they are gone over.
#include <stdbool.h>
#include <stdint.h>
#include <stdio.h>
#include <stdlib.h>
#include <string.h>

enum { MOST_TASKS = 16, MOST_CHAINS = 8, MOST_JOBS = 8192, MOST_TICKS = 1000000, MOST_PERIOD = 100000, MOST_LIMIT = 4000000, OLD_LIMIT = 1000 };

struct task {
    uint32_t period, budget;
    uint8_t rank;
};

struct chain {
    uint8_t entries[MOST_TASKS];
    uint32_t length, limit;
};

struct sheet {
    struct task tasks[MOST_TASKS];
    struct chain chains[MOST_CHAINS];
    uint32_t count, suite;
};

struct plan {
    uint32_t hyperperiod, jobs, idle;
    uint32_t counts[MOST_TASKS];
    uint32_t *rows[MOST_TASKS];
};

// Fills the rows and the idle ticks; the greatest-ranked late task, or -1.
static int fill(const struct sheet *s, struct plan *plan);

static void refuse(int number) {
    printf("refused %d\n", number);
    exit(0);
}

static void refuse_at(int number, uint32_t bit) {
    printf("refused %d bit %u\n", number, bit);
    exit(0);
}

// The bits of a sheet, and where the field that is judged begins.
struct reader {
    const uint8_t *bytes;
    uint32_t bits, at, begin;
};

static uint32_t field(struct reader *r, uint32_t width) {
    r->begin = r->at;
    if (r->bits < r->at + width)
        refuse_at(1, r->begin);
    uint32_t value = 0;
    for (uint32_t end = r->at + width; r->at < end; r->at++)
        value = value * 2 + (r->bytes[r->at / 8] >> (7 - r->at % 8)) % 2;
    return value;
}

static struct task read_task(struct reader *r, const struct sheet *s, uint32_t i) {
    struct task t;
    t.period = field(r, 17);
    if (t.period == 0 || MOST_PERIOD < t.period)
        refuse_at(3, r->begin);
    t.budget = field(r, 17);
    if (t.budget == 0 || t.period < t.budget)
        refuse_at(4, r->begin);
    t.rank = field(r, 8);
    for (uint32_t j = 0; j < i; j++)
        if (s->tasks[j].rank == t.rank)
            refuse_at(5, r->begin);
    return t;
}

static void read_entries(struct reader *r, const struct sheet *s, struct chain *c) {
    c->length = field(r, 5);
    if (c->length == 0 || s->count < c->length)
        refuse_at(6, r->begin);
    for (uint32_t i = 0; i < c->length; i++) {
        c->entries[i] = field(r, 4);
        if (s->count <= c->entries[i])
            refuse_at(7, r->begin);
        for (uint32_t j = 0; j < i; j++)
            if (c->entries[j] == c->entries[i])
                refuse_at(8, r->begin);
    }
}

// The chains of edition 2, each with its limit; an old sheet has one, under the old limit.
static void read_chains(struct reader *r, struct sheet *s, bool marked) {
    s->suite = 1;
    if (marked) {
        s->suite = field(r, 4);
        if (s->suite == 0 || MOST_CHAINS < s->suite)
            refuse(17);
    }
    for (uint32_t c = 0; c < s->suite; c++) {
        s->chains[c].limit = marked ? field(r, 22) : OLD_LIMIT;
        if (MOST_LIMIT < s->chains[c].limit)
            refuse(13);
        read_entries(r, s, &s->chains[c]);
    }
}

static void read_sheet(const uint8_t *bytes, uint32_t size, struct sheet *s) {
    struct reader r = {bytes, size * 8, 0, 0};
    s->count = field(&r, 5);
    bool marked = s->count == 31;
    if (marked) {
        if (field(&r, 4) != 2)
            refuse(16);
        s->count = field(&r, 5);
    }
    if (s->count == 0 || MOST_TASKS < s->count)
        refuse_at(2, r.begin);
    for (uint32_t i = 0; i < s->count; i++)
        s->tasks[i] = read_task(&r, s, i);
    read_chains(&r, s, marked);
    while (r.at % 8 != 0)
        if (field(&r, 1) != 0)
            refuse_at(9, r.begin);
    if (r.at < r.bits)
        refuse_at(9, r.at);
}

static uint32_t common_divisor(uint32_t a, uint32_t b) {
    while (b != 0) {
        uint32_t rest = a % b;
        a = b;
        b = rest;
    }
    return a;
}

static void fill_table(const struct sheet *s, struct plan *plan, uint32_t *table) {
    uint64_t multiple = 1;
    for (uint32_t i = 0; i < s->count; i++) {
        uint32_t period = s->tasks[i].period;
        multiple *= period / common_divisor(period, multiple);
        if (MOST_TICKS < multiple)
            refuse(10);
    }
    plan->hyperperiod = multiple;
    plan->jobs = 0;
    for (uint32_t i = 0; i < s->count; i++) {
        plan->counts[i] = plan->hyperperiod / s->tasks[i].period;
        plan->rows[i] = table + plan->jobs;
        plan->jobs += plan->counts[i];
        if (MOST_JOBS < plan->jobs)
            refuse(11);
    }
    int late = fill(s, plan);
    if (0 <= late) {
        printf("refused 15 task %d\n", late);
        exit(0);
    }
}

static uint32_t response(const struct plan *plan, uint32_t i, uint32_t job) {
    uint32_t count = plan->counts[i];
    return plan->rows[i][job < count ? job : job % count];
}

static uint32_t delay(const struct sheet *s, const struct chain *chain, const struct plan *plan, uint32_t job) {
    uint32_t p = chain->entries[0], ticks = 0;
    for (uint32_t i = 1; i < chain->length; i++) {
        uint32_t c = chain->entries[i];
        uint32_t release = job * s->tasks[p].period, ready = release;
        if (s->tasks[p].rank < s->tasks[c].rank)
            ready += response(plan, p, job);
        uint32_t period = s->tasks[c].period;
        job = (ready + (period - 1)) / period;
        ticks += job * period - release;
        p = c;
    }
    return ticks + response(plan, p, job);
}

struct figure {
    uint32_t ticks, release;
};

static struct figure sampling(const struct sheet *s, const struct chain *chain, const struct plan *plan) {
    uint32_t p = chain->entries[0];
    struct figure most = {0, 0};
    for (uint32_t job = 0; job < plan->counts[p]; job++) {
        uint32_t ticks = delay(s, chain, plan, job);
        if (most.ticks < ticks) {
            most.ticks = ticks;
            most.release = job * s->tasks[p].period;
        }
    }
    return most;
}

static uint32_t sampling_bound(const struct sheet *s, const struct chain *chain, const uint32_t *greatest) {
    uint32_t p = chain->entries[0], ticks = 0;
    for (uint32_t i = 1; i < chain->length; i++) {
        uint32_t c = chain->entries[i];
        uint32_t g = common_divisor(s->tasks[p].period, s->tasks[c].period);
        ticks += s->tasks[c].period - g;
        if (s->tasks[p].rank < s->tasks[c].rank)
            ticks += (greatest[p] + (g - 1)) / g * g;
        p = c;
    }
    return ticks + greatest[p];
}

// The response of a task by the recurrence, or a value past its period.
static uint32_t climb(const struct sheet *s, uint32_t i) {
    struct task own = s->tasks[i];
    uint32_t value = own.budget;
    while (value <= own.period) {
        uint32_t next = own.budget;
        for (uint32_t j = 0; j < s->count; j++) {
            struct task t = s->tasks[j];
            if (own.rank < t.rank)
                next += t.budget * ((value + (t.period - 1)) / t.period);
        }
        if (next == value)
            break;
        value = next;
    }
    return value;
}

// The same, with those that outrank it gathered once, as ours does.
static uint32_t climb_gathered(const struct sheet *s, uint32_t i) {
    struct task own = s->tasks[i];
    uint32_t periods[MOST_TASKS], budgets[MOST_TASKS], size = 0;
    for (uint32_t j = 0; j < s->count; j++)
        if (own.rank < s->tasks[j].rank) {
            periods[size] = s->tasks[j].period;
            budgets[size] = s->tasks[j].budget;
            size++;
        }
    uint32_t value = own.budget;
    while (value <= own.period) {
        uint32_t next = own.budget;
        for (uint32_t p = 0; p < size; p++)
            next += budgets[p] * ((value + (periods[p] - 1)) / periods[p]);
        if (next == value)
            break;
        value = next;
    }
    return value;
}

// How long a flag may wait for the release of the chain's first task.
static uint32_t wait_of(const struct sheet *s, const struct chain *chain) {
    return s->tasks[chain->entries[0]].period - 1;
}

// The response of each task.
static void climb_all(const struct sheet *s, bool gathered, uint32_t *responses) {
    int late = -1;
    for (uint32_t i = 0; i < s->count; i++) {
        responses[i] = gathered ? climb_gathered(s, i) : climb(s, i);
        if (s->tasks[i].period < responses[i] && (late < 0 || s->tasks[late].rank < s->tasks[i].rank))
            late = i;
    }
    if (0 <= late) {
        printf("refused 15 task %d\n", late);
        exit(0);
    }
}

static void print_chain(const struct chain *chain) {
    printf("chain");
    for (uint32_t i = 0; i < chain->length; i++)
        printf(" %u", chain->entries[i]);
    printf("\n");
}

static void print_bound(const struct sheet *s, bool gathered) {
    uint32_t responses[MOST_TASKS];
    climb_all(s, gathered, responses);
    for (uint32_t i = 0; i < s->count; i++)
        printf("task %u response %u\n", i, responses[i]);
    for (uint32_t c = 0; c < s->suite; c++) {
        const struct chain *chain = &s->chains[c];
        print_chain(chain);
        printf("bound %u\n", sampling_bound(s, chain, responses) + wait_of(s, chain));
    }
}

static void find_greatest(const struct sheet *s, const struct plan *plan, uint32_t *greatest) {
    for (uint32_t i = 0; i < s->count; i++) {
        greatest[i] = 0;
        for (uint32_t k = 0; k < plan->counts[i]; k++)
            if (greatest[i] < plan->rows[i][k])
                greatest[i] = plan->rows[i][k];
    }
}

static void print_figures(const struct sheet *s, const struct plan *plan) {
    uint32_t greatest[MOST_TASKS];
    find_greatest(s, plan, greatest);
    struct figure figure = sampling(s, &s->chains[0], plan);
    printf("%u %u %u\n", figure.ticks, figure.release, sampling_bound(s, &s->chains[0], greatest));
}

static void print_report(const struct sheet *s, const struct plan *plan) {
    uint32_t greatest[MOST_TASKS];
    find_greatest(s, plan, greatest);
    printf("tasks %u hyperperiod %u jobs %u idle %u\n", s->count, plan->hyperperiod, plan->jobs, plan->idle);
    for (uint32_t i = 0; i < s->count; i++)
        printf("task %u response %u\n", i, greatest[i]);
    for (uint32_t c = 0; c < s->suite; c++) {
        const struct chain *chain = &s->chains[c];
        print_chain(chain);
        struct figure figure = sampling(s, chain, plan);
        uint32_t wait = wait_of(s, chain), worst = figure.ticks + wait;
        printf("worst %u from %u\n", worst, figure.release);
        printf("bound %u\nmargin %d\n", sampling_bound(s, chain, greatest) + wait, (int32_t)chain->limit - (int32_t)worst);
    }
}

#include "log.h"

int main(int count, char **words) {
    uint8_t input[4096];
    uint32_t table[MOST_JOBS];
    struct sheet s;
    struct plan plan;
    const char *what = count == 2 ? words[1] : "report";
    read_sheet(input, fread(input, 1, sizeof input, stdin), &s);
    if (strcmp(what, "read") == 0) {
        printf("%u\n", s.count);
        return 0;
    }
    bool gathered = strstr(what, "-twin") != NULL;
    if (strncmp(what, "quick", 5) == 0) {
        uint32_t responses[MOST_TASKS];
        climb_all(&s, gathered, responses);
        printf("%u\n", sampling_bound(&s, &s.chains[0], responses) + wait_of(&s, &s.chains[0]));
        return 0;
    }
    if (strncmp(what, "bound", 5) == 0) {
        print_bound(&s, gathered);
        return 0;
    }
    static struct log log;
    bool replays = strcmp(what, "replay") == 0;
    if (replays) {
        static uint8_t bytes[MOST_LOG];
        ssize_t size = 0, more;
        while ((more = read(3, bytes + size, sizeof bytes - size)) > 0)
            size += more;
        read_log(bytes, size, &s, &log);
    }
    fill_table(&s, &plan, table);
    if (replays)
        print_replay(&s, &plan, &log);
    else if (strcmp(what, "table") == 0)
        printf("%u\n", plan.idle);
    else if (strcmp(what, "figures") == 0)
        print_figures(&s, &plan);
    else
        print_report(&s, &plan);
    return 0;
}
