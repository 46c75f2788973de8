// Calls from C: an order of three packages, a walk that is judged, what texts say of a platform, and what guppy-cargo
// prints of the JSON on standard input for the arguments, as far as there is room.

#include "guppy.h"
#include <stdio.h>
#include <string.h>

static const struct guppy_ends links[] = {{2, 0}, {0, 1}, {1, 0}, {1, 1}};

static bool order(void) {
    const bool flags[] = {true, true, false, true};
    uint32_t list[3] = {0};
    struct guppy_outcome outcome = guppy_order(links, 4, flags, 4, list, 3);
    printf("%u %u %u\n", list[0], list[1], list[2]);
    return outcome.status == 0;
}

// A walk from two, whose visitor takes each link but every third; and the same, as if the first two had come the other
// way round.
static bool walks(void) {
    bool included[3] = {false, false, true}, answers[4];
    size_t shown[4], count = 0;
    uint32_t found[3] = {2}, ends = 1;
    const bool starts[3] = {false, false, true};
    for (uint32_t at = 0; at < ends; at++) {
        for (size_t number = 0; number < 4; number++) {
            if (links[number].from != found[at]) {
                continue;
            }
            bool is_taken = count % 3 != 2;
            uint32_t to = links[number].to;
            shown[count] = number;
            answers[count++] = is_taken;
            if (is_taken && !included[to]) {
                included[to] = true;
                found[ends++] = to;
            }
        }
    }
    struct guppy_judged walk = guppy_judge(links, 4, starts, 3, shown, count, answers, count, included, 3, true);
    size_t first = shown[0];
    shown[0] = shown[1];
    shown[1] = first;
    struct guppy_judged other = guppy_judge(links, 4, starts, 3, shown, count, answers, count, included, 3, true);
    printf("%zu shown: %d, %d\n", count, walk.holds, other.holds);
    return walk.outcome.status == 0 && other.outcome.status == 0;
}

static struct guppy_evaluated said(const char *text, const char *cfgs) {
    const char *name = "x86_64-unknown-linux-gnu";
    const uint8_t *words[] = {(const uint8_t *)text, (const uint8_t *)name, (const uint8_t *)cfgs};
    return guppy_eval(words[0], strlen(text), words[1], strlen(name), words[2], strlen(cfgs));
}

static bool platforms(void) {
    const char *texts[] = {"cfg(unix)", "cfg(windows)", "cfg(unix", "x86_64-unknown-linux-gnu"};
    for (int number = 0; number < 4; number++) {
        struct guppy_evaluated told = said(texts[number], "unix\ntarget_os=\"linux\"\n");
        printf("%u%u ", told.status, told.value);
    }
    struct guppy_evaluated line = said("cfg(unix)", "unix\n2\n");
    printf("%u%zu\n", line.status, line.line);
    return line.status == 1;
}

static size_t arguments(int count, char **words, uint8_t *args) {
    size_t length = 0;
    for (int word = 1; word < count; word++) {
        size_t more = strlen(words[word]);
        memcpy(args + length, words[word], more);
        args[length + more] = 0;
        length += more + 1;
    }
    return length > 0 ? length - 1 : 0;
}

int main(int count, char **words) {
    static uint8_t json[1 << 16], args[1 << 12], out[1 << 12];
    if (guppy_version() != GUPPY_C_VERSION || !order() || !walks() || !platforms()) {
        return 3;
    }
    size_t length = fread(json, 1, sizeof json, stdin);
    struct guppy_answer answer = guppy_answer(json, length, args, arguments(count, words, args), out, sizeof out);
    if (answer.status > 1) {
        return 2;
    }
    fwrite(out, 1, answer.len, stdout);
    return (int)answer.status;
}
