// Times the finder's calls on one folio, each stage 200 times over (what is slow 5 times), and measures the stack that building takes.
#include <stdint.h>
#include <stdio.h>
#include <stdlib.h>
#include <string.h>
#include <time.h>
#include <ucontext.h>

#define BYTES(a, n) (const uint8_t *)(a), (size_t)(n)
#define WORDS(a, n) (uint16_t *)(a), (size_t)(n)

size_t stage_open(const uint8_t *, size_t, uint16_t *, size_t, uint16_t *, size_t, uint16_t *, size_t, uint16_t *, size_t);
size_t stage_build(const uint8_t *, size_t, const uint16_t *, size_t, const uint16_t *, size_t, uint16_t *, size_t, uint16_t *, size_t);
size_t stage_start(const uint8_t *, size_t, const uint16_t *, size_t, const uint16_t *, size_t, uint16_t *, size_t, uint16_t *, size_t,
                   uint16_t *, size_t);
size_t stage_step(const uint16_t *, size_t, const uint16_t *, size_t, const uint16_t *, size_t, uint16_t *, size_t, uint16_t *, size_t,
                  uint16_t *, size_t, size_t, size_t, size_t, size_t);
size_t stage_list(const uint16_t *, size_t, const uint16_t *, size_t, const uint16_t *, size_t, uint16_t *, size_t, uint16_t *, size_t,
                  uint16_t *, size_t, const uint16_t *, size_t);
size_t stage_compare(const uint8_t *, size_t, const uint16_t *, size_t, const uint16_t *, size_t, const uint16_t *, size_t, const uint16_t *, size_t,
                     uint16_t *, size_t);
size_t stage_put(const uint8_t *, size_t, const uint16_t *, size_t, const uint16_t *, size_t, const uint16_t *, size_t, const uint16_t *, size_t,
                 const uint16_t *, size_t, uint16_t *, size_t, uint16_t, uint16_t);
size_t stage_matches(const uint8_t *, size_t, const uint16_t *, size_t, const uint16_t *, size_t, const uint16_t *, size_t);
size_t stage_count(const uint8_t *, size_t, const uint16_t *, size_t, const uint16_t *, size_t, const uint16_t *, size_t, const uint16_t *, size_t,
                   const uint16_t *, size_t);

enum { ROUNDS = 200, FEW_ROUNDS = 5, UNTOUCHED = 0xA5 };

static uint8_t file[8745];
static uint16_t words[256], starts[16], score[4096], spans[4096], plan[32768], scratch[32768], waiting[8192], logged[4096], marks[4096], choices[4096], new_score[4096];
static size_t length, symbols, shape_words, shapes, nodes, plan_words;

static size_t open_file(void) { return stage_open(BYTES(file, length), WORDS(words, 256), WORDS(starts, 16), WORDS(score, 4096), WORDS(spans, 4096)); }

// As many as starts ascend: opening writes no others.
static size_t count_shapes(void) {
    size_t n = 1;
    while (n < 16 && starts[n] > starts[n - 1]) n++;
    return n;
}

static size_t build_plan(void) {
    return stage_build(BYTES(file, symbols), WORDS(words, shape_words), WORDS(starts, shapes), WORDS(plan, 32768), WORDS(scratch, 32768));
}

static size_t start_walk(void) {
    return stage_start(BYTES(file, symbols), WORDS(score, nodes), WORDS(spans, nodes), WORDS(waiting, 8192), WORDS(logged, 4096), WORDS(marks, 4096));
}

// The last item is taken each time, as in find; what was chosen is noted for the list. With each step's answer `screen` is told the stored number.
static size_t walk_by(void (*screen)(size_t)) {
    size_t answer = start_walk();
    size_t done = 0;
    while (answer % 65536 > 1) {
        size_t last = answer % 65536 - 2;
        choices[done] = (uint16_t)last;
        answer = stage_step(WORDS(plan, plan_words), WORDS(score, nodes), WORDS(spans, nodes), WORDS(waiting, 8192), WORDS(logged, 4096), WORDS(marks, 4096),
                            last + 1, done, answer / 65536, last);
        screen(answer / 65536);
        done++;
    }
    return answer % 65536 == 1 ? done : 0;
}

static volatile size_t shown;

static void show_nothing(size_t number) { (void)number; }

static void show_stored(size_t number) { shown = number; }

static void show_counted(size_t number) {
    (void)number;
    shown = stage_matches(BYTES(file, symbols), WORDS(score, nodes), WORDS(spans, nodes), WORDS(marks, 4096));
}

static size_t walk_score(void) { return walk_by(show_nothing); }

// A folder's screen: the number of matches after every step.
static size_t screen_stored(void) { return walk_by(show_stored) ? shown : 0; }

static size_t screen_counted(void) { return walk_by(show_counted) ? shown : 0; }

// The same choices in one call.
static size_t walk_list(void) {
    if (start_walk() == 0) return 0;
    return stage_list(WORDS(plan, plan_words), WORDS(score, nodes), WORDS(spans, nodes), WORDS(waiting, 8192), WORDS(logged, 4096), WORDS(marks, 4096),
                      WORDS(choices, nodes));
}

static size_t compare_score(void) {
    size_t answer =
        stage_compare(BYTES(file, symbols), WORDS(words, shape_words), WORDS(starts, shapes), WORDS(score, nodes), WORDS(spans, nodes), WORDS(marks, 4096));
    return answer == 0 ? 0 : nodes;
}

// A symbol without children is put in for the last match.
static size_t put_symbol(void) {
    uint16_t link[] = {0}, shape = 0;
    size_t node = nodes;
    while (link[0] < symbols && file[link[0]] != 0) link[0]++;
    while (node > 0 && marks[node - 1] == 0) node--;
    if (node == 0) return 0;
    while ((marks[node - 1] >> shape & 1) == 0) shape++;
    return stage_put(BYTES(file, symbols), WORDS(words, shape_words), WORDS(starts, shapes), WORDS(score, nodes), WORDS(spans, nodes), WORDS(link, 1),
                     WORDS(new_score, 4096), shape, (uint16_t)(node - 1));
}

static size_t count_marks(void) {
    return stage_count(BYTES(file, symbols), WORDS(words, shape_words), WORDS(starts, shapes), WORDS(score, nodes), WORDS(spans, nodes), WORDS(marks, 4096));
}

static double now(void) {
    struct timespec t;
    clock_gettime(CLOCK_MONOTONIC, &t);
    return (double)t.tv_sec * 1e6 + (double)t.tv_nsec / 1e3;
}

static int earlier(const void *a, const void *b) { return *(const double *)a < *(const double *)b ? -1 : *(const double *)a > *(const double *)b; }

// One row: the least and the median time in microseconds, and what the stage answers.
static size_t row_of(int rounds, const char *name, size_t (*stage)(void), const char *what) {
    static double took[ROUNDS];
    size_t answer = 0;
    for (int i = 0; i < rounds; i++) {
        double begun = now();
        answer = stage();
        took[i] = now() - begun;
    }
    if (answer == 0) {
        fprintf(stderr, "stages: %s is refused\n", name);
        exit(1);
    }
    qsort(took, (size_t)rounds, sizeof took[0], earlier);
    printf("%-8s %12.1f %12.1f   %zu %s\n", name, took[0], took[rounds / 2], answer, what);
    return answer;
}

static size_t row(const char *name, size_t (*stage)(void), const char *what) { return row_of(ROUNDS, name, stage, what); }

// The two engines on the first shapes of the folio.
static void rows_for(size_t first) {
    if (first < shapes) shape_words = starts[first];
    shapes = first;
    plan_words = build_plan();
    printf("its first shapes, %zu:\n", first);
    if (plan_words > 0) row("walk", walk_score, "steps");
    row("simple", compare_score, "nodes");
}

// How many bytes of a stack of its own a call touches.
static size_t touched(void (*call)(void)) {
    static unsigned char stack[1 << 17];
    static ucontext_t back, aside;
    memset(stack, UNTOUCHED, sizeof stack);
    getcontext(&aside);
    aside.uc_stack.ss_sp = stack;
    aside.uc_stack.ss_size = sizeof stack;
    aside.uc_link = &back;
    makecontext(&aside, call, 0);
    swapcontext(&back, &aside);
    size_t low = 0;
    while (low < sizeof stack && stack[low] == UNTOUCHED) low++;
    return sizeof stack - low;
}

static void nothing(void) {}

static void build_alone(void) { build_plan(); }

int main(void) {
    length = fread(file, 1, sizeof file, stdin);
    if (length < 8) return 1;
    uint8_t *trailer = file + length - 8;
    size_t a = trailer[0] + 256u * trailer[1], b = trailer[2] + 256u * trailer[3], c = trailer[4] + 256u * trailer[5];
    symbols = a - b;
    shape_words = (b - c) / 2;
    printf("%-8s %12s %12s   answer\n", "stage", "least us", "median us");
    nodes = row("open", open_file, "nodes");
    shapes = count_shapes();
    plan_words = row("build", build_plan, "plan words");
    row("walk", walk_score, "steps");
    row("list", walk_list, "steps");
    row("count", count_marks, "matches");
    row("put", put_symbol, "words, with the last match replaced");
    row("screen", screen_stored, "matches, the number stored after every step");
    row_of(FEW_ROUNDS, "recount", screen_counted, "matches, the number counted after every step");
    printf("build's stack: %zu bytes\n", touched(build_alone) - touched(nothing));
    static const size_t firsts[] = {16, 3, 1};
    for (int i = 0; i < 3; i++)
        if (firsts[i] <= shapes) rows_for(firsts[i]);
    return 0;
}
