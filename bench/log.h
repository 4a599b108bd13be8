// The replay of a log as one would write it by hand in C: the records are taken down and judged, and after the table is filled gone through
// once. Of each task the release of the next job is kept, the jobs that have started and not finished stand on each other, and at each place
// of the chain the first path that waits there or is under way, and how many are.
#include <unistd.h>

enum { MOST_RECORDS = 4095, MOST_LOG = 65536 };

struct record {
    uint32_t task, kind, tick;
};

struct log {
    uint32_t count;
    struct record records[MOST_RECORDS];
};

// The number in up to 32 bits; five bytes hold them wherever they begin.
static uint32_t number(struct reader *r, uint32_t width) {
    r->begin = r->at;
    if (r->bits < r->at + width)
        refuse_at(1, r->begin);
    uint64_t bytes = 0;
    for (uint32_t k = 0; k < 5; k++)
        bytes = bytes * 256 + (r->at / 8 + k < r->bits / 8 ? r->bytes[r->at / 8 + k] : 0);
    uint64_t value = bytes >> (40 - r->at % 8 - width) & ((UINT64_C(1) << width) - 1);
    r->at += width;
    return value;
}

static void read_log(const uint8_t *bytes, uint32_t size, const struct sheet *s, struct log *log) {
    struct reader r = {bytes, size * 8, 0, 0};
    bool under_way[MOST_TASKS] = {false};
    uint32_t before = number(&r, 32), time = 0;
    log->count = number(&r, 12);
    for (uint32_t k = 0; k < log->count; k++) {
        struct record *record = &log->records[k];
        record->task = number(&r, 4);
        if (s->count <= record->task)
            refuse(19);
        record->kind = number(&r, 1);
        if (under_way[record->task] != record->kind)
            refuse(20);
        under_way[record->task] = !record->kind;
        uint32_t counter = number(&r, 32), gap = counter - before;
        if (INT32_MAX < gap || INT32_MAX < time + gap)
            refuse(21);
        before = counter;
        time += gap;
        record->tick = time;
    }
    while (r.at % 8 != 0)
        if (number(&r, 1) != 0)
            refuse_at(9, r.begin);
    if (r.at < r.bits)
        refuse_at(9, r.at);
}

struct paths {
    uint32_t first, count;
};

struct replay {
    uint64_t next[MOST_TASKS];
    uint32_t ran[MOST_TASKS], started[MOST_TASKS], depth, now;
    int place[MOST_TASKS];
    struct paths waits[MOST_TASKS], under_way[MOST_TASKS];
    uint32_t jobs, paths, longest, job;
};

// Whether a task of greater rank is released before a tick.
static bool outranked(const struct sheet *s, const struct replay *r, int rank, uint64_t tick) {
    for (uint32_t i = 0; i < s->count; i++)
        if (r->next[i] < tick && rank < s->tasks[i].rank)
            return true;
    return false;
}

// The ticks up to a record, in which one task runs or none is released.
static bool run_until(const struct sheet *s, struct replay *r, uint32_t tick) {
    uint32_t gap = tick - r->now;
    if (gap == 0)
        return true;
    r->now = tick;
    if (r->depth == 0)
        return !outranked(s, r, -1, tick);
    uint32_t top = r->started[r->depth - 1];
    r->ran[top] += gap;
    return r->ran[top] <= s->tasks[top].budget && !outranked(s, r, s->tasks[top].rank, tick);
}

static bool start(const struct sheet *s, struct replay *r, uint32_t i) {
    int below = -1;
    if (r->depth != 0) {
        uint32_t top = r->started[r->depth - 1];
        if (r->ran[top] == s->tasks[top].budget)
            return false;
        below = s->tasks[top].rank;
    }
    if (s->tasks[i].rank <= below || r->now < r->next[i] || outranked(s, r, s->tasks[i].rank, (uint64_t)r->now + 1))
        return false;
    r->next[i] += s->tasks[i].period;
    r->ran[i] = 0;
    r->started[r->depth++] = i;
    int place = r->place[i];
    if (0 < place) {
        r->under_way[place] = r->waits[place];
        r->waits[place].count = 0;
    } else if (place == 0)
        r->under_way[0] = (struct paths){r->jobs++, 1};
    return true;
}

static bool finish(const struct sheet *s, struct replay *r, uint32_t i) {
    if (r->depth == 0 || r->started[r->depth - 1] != i || r->ran[i] == 0)
        return false;
    r->depth--;
    const struct chain *chain = &s->chains[0];
    int place = r->place[i];
    if (place < 0 || r->under_way[place].count == 0)
        return true;
    struct paths *done = &r->under_way[place];
    if (place + 1 < (int)chain->length) {
        struct paths *next = &r->waits[place + 1];
        if (next->count == 0)
            next->first = done->first;
        next->count += done->count;
        return true;
    }
    uint32_t delay = r->now - done->first * s->tasks[chain->entries[0]].period;
    if (r->paths == 0 || r->longest < delay) {
        r->longest = delay;
        r->job = done->first;
    }
    r->paths += done->count;
    return true;
}

static void print_replay(const struct sheet *s, const struct plan *plan, const struct log *log) {
    struct replay r = {0};
    for (uint32_t i = 0; i < s->count; i++)
        r.place[i] = -1;
    for (uint32_t place = 0; place < s->chains[0].length; place++)
        r.place[s->chains[0].entries[place]] = place;
    uint32_t k = 0;
    for (; k < log->count; k++) {
        const struct record *record = &log->records[k];
        if (!run_until(s, &r, record->tick) || !(record->kind ? finish : start)(s, &r, record->task))
            break;
    }
    printf("records %u\npaths %u\nlongest ", log->count, r.paths);
    if (r.paths == 0)
        printf("none\n");
    else
        printf("%u job %u\n", r.longest, r.job);
    printf("figure %u\n", sampling(s, &s->chains[0], plan).ticks);
    if (k < log->count)
        printf("breaks at record %u\n", k);
    else
        printf("agrees\n");
}
