// Each call that takes a slice, on eight threads at once, over one graph and the JSON on standard input: each is to write what it writes
// alone.

#include "guppy.h"
#include <pthread.h>
#include <stdio.h>
#include <string.h>

enum { LINKS = 4, POSITIONS = 3, THREADS = 8, TURNS = 4 };

static const struct guppy_ends links[LINKS] = {{2, 0}, {0, 1}, {1, 0}, {1, 1}};
static const bool flags[LINKS] = {true, true, false, true}, starts[POSITIONS] = {false, false, true};
static uint8_t json[1 << 16];
static size_t length;

struct written {
    uint32_t statuses[10];
    bool reached[POSITIONS], roots[POSITIONS], firsts[POSITIONS];
    uint32_t order[POSITIONS], list[POSITIONS], cycle[POSITIONS];
    size_t numbers[LINKS], lengths[4];
    uint8_t answer[1 << 10], records[1 << 15];
};

static void call_all(struct written *it) {
    static const size_t shown[] = {0, 1, 2, 3};
    static const bool all[] = {true, true, true, true};
    static const uint8_t unix_text[] = "cfg(unix)", name[] = "linux", cfgs[] = "unix", command[] = "order";
    memset(it, 0, sizeof *it);
    uint32_t *status = it->statuses;
    *status++ = guppy_reach(links, LINKS, flags, LINKS, starts, POSITIONS, true, it->reached, POSITIONS).status;
    *status++ = guppy_order(links, LINKS, flags, LINKS, it->order, POSITIONS).status;
    *status++ = guppy_components(links, LINKS, flags, LINKS, it->list, POSITIONS, it->firsts, POSITIONS).status;
    *status++ = guppy_roots(links, LINKS, all, POSITIONS, true, it->roots, POSITIONS).status;
    struct guppy_listed cycle = guppy_cycle(links, LINKS, all, LINKS, it->cycle, POSITIONS);
    struct guppy_listed inside = guppy_links(links, LINKS, all, POSITIONS, true, it->numbers, LINKS);
    struct guppy_judged judged =
        guppy_judge(links, LINKS, starts, POSITIONS, shown, LINKS, all, LINKS, all, POSITIONS, true);
    struct guppy_evaluated said =
        guppy_eval(unix_text, sizeof unix_text - 1, name, sizeof name - 1, cfgs, sizeof cfgs - 1);
    struct guppy_answer answer =
        guppy_answer(json, length, command, sizeof command - 1, it->answer, sizeof it->answer);
    struct guppy_answer records = guppy_records(json, length, true, it->records, sizeof it->records);
    *status++ = cycle.outcome.status;
    *status++ = inside.outcome.status;
    *status++ = 10 * judged.outcome.status + !judged.holds;
    *status++ = 10 * said.status + (said.value != 2);
    *status++ = answer.status;
    *status++ = records.status;
    memcpy(it->lengths, (const size_t[]){cycle.len, inside.len, answer.len, records.len}, sizeof it->lengths);
}

static struct written alone, together[THREADS];

static void *call_in_turn(void *to) {
    for (int turn = 0; turn < TURNS; turn++) {
        call_all(to);
    }
    return NULL;
}

int main(void) {
    length = fread(json, 1, sizeof json, stdin);
    call_all(&alone);
    for (int number = 0; number < 10; number++) {
        if (alone.statuses[number] != 0) {
            return 1;
        }
    }
    pthread_t threads[THREADS];
    for (int number = 0; number < THREADS; number++) {
        if (pthread_create(&threads[number], NULL, call_in_turn, &together[number]) != 0) {
            return 2;
        }
    }
    for (int number = 0; number < THREADS; number++) {
        pthread_join(threads[number], NULL);
    }
    for (int number = 0; number < THREADS; number++) {
        if (memcmp(&alone, &together[number], sizeof alone) != 0) {
            return 3;
        }
    }
    puts("the same");
    return 0;
}
