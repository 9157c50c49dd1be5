// Times the proved library and the plain C program in one process by one clock, and prints their ratios.
// The clock counts the processor's time of this process, so that other work on the machine disturbs it less.
// Before it times a case it holds the answers of both to each other, for the case and for altered inputs.
#include "plain.h"
#include <stdio.h>
#include <stdlib.h>
#include <string.h>
#include <time.h>

// The proved library. Its allocator takes no bytes, so it does not stand here.
bool bench_file(const uint8_t *text, size_t text_size, const uint8_t *paper, size_t size, uint32_t times, Answer *answer);
uint32_t bench_open(const uint8_t *text, size_t size, uint32_t times);
bool bench_read(const uint8_t *text, size_t size, uint32_t times, void *reading);
uint32_t bench_trim_four(const uint8_t *text, size_t size, uint32_t times);
uint32_t bench_trimmed_two(const uint8_t *text, size_t size);
uint32_t bench_trimmed_four(const uint8_t *text, size_t size);

typedef struct {
    uint8_t *bytes;
    size_t size;
} Bytes;

typedef struct {
    const char *name;
    enum { FILING, TRIM, READ } what;
    const char *set, *paper;
    bool parts; // whether the C program has a way over the parts
    uint32_t first; // how many operations are done before those that count; a reading is done once at least
} Case;

static const Case CASES[] = {
    { "ranking, stack, dense", FILING, "two_dense.txt", "two_ranking.bin", true, 0 },
    { "ranking, stack, sparse", FILING, "two_sparse.txt", "two_ranking.bin", true, 0 },
    { "ranking, stack of stacks, dense", FILING, "four_dense.txt", "four_ranking.bin", true, 0 },
    { "ranking, stack of stacks, sparse", FILING, "four_sparse.txt", "four_ranking.bin", true, 0 },
    { "trim, stack, dense, all goes", TRIM, "two_trim_dense.txt", NULL, true, 0 },
    { "trim, stack, sparse, all goes", TRIM, "two_trim_sparse.txt", NULL, true, 0 },
    { "trim, stack, half meet, all stays", TRIM, "round_trim.txt", NULL, true, 0 },
    { "trim, stack of stacks, dense, all goes", TRIM, "four_dense.txt", NULL, true, 0 },
    { "trim, stack of stacks, sparse, all goes", TRIM, "four_sparse.txt", NULL, true, 0 },
    { "strip of 8,064, plain set", FILING, "round_plain.txt", "strip_plain.bin", false, 0 },
    { "strip of 8,064, stack", FILING, "round_two.txt", "strip_two.bin", false, 0 },
    { "torus of 8,062 cells, plain set", FILING, "all_plain.txt", "torus_plain.bin", false, 0 },
    { "set text of 65,535 bytes", READ, "long.txt", NULL, false, 1 },
};

enum { CASE_COUNT = sizeof CASES / sizeof *CASES, TURNS = 4, ROUNDS = 8 };

static const Plain *const PLAINS[] = { &plain_gcc, &plain_clang };

static Docket dockets[2];
static Tile tiles[MOST_TILES];
static uint8_t kept[MOST_STATES];

static void stop(const char *why, const char *what)
{
    fprintf(stderr, "%s: %s\n", what, why);
    exit(1);
}

static Bytes read_file(const char *folder, const char *name)
{
    char path[4096];
    snprintf(path, sizeof path, "%s/%s", folder, name);
    FILE *f = fopen(path, "rb");
    if (!f) stop("cannot be read", path);
    Bytes b = { malloc(1 << 17), 0 };
    b.size = fread(b.bytes, 1, 1 << 17, f);
    fclose(f);
    return b;
}

static double now(void)
{
    struct timespec t;
    clock_gettime(CLOCK_PROCESS_CPUTIME_ID, &t);
    return t.tv_sec + t.tv_nsec * 1e-9;
}

// ---- the answers of both agree ----

static bool same_answer(Answer a, Answer b)
{
    return a.number == b.number && a.place == b.place && a.floor == b.floor && a.ceiling == b.ceiling;
}

static void check_filing(const char *name, Bytes set, Bytes paper)
{
    Answer want;
    if (!bench_file(set.bytes, set.size, paper.bytes, paper.size, 1, &want)) stop("no docket", name);
    for (int k = 0; k < 4; k++) {
        Docket d;
        if (!PLAINS[k / 2]->open(&d, set.bytes, set.size)) stop("no C docket", name);
        Answer (*file)(Docket *, const uint8_t *, size_t) = k % 2 ? PLAINS[k / 2]->file_parts : PLAINS[k / 2]->file_slots;
        if (!same_answer(want, file(&d, paper.bytes, paper.size))) stop("answers differ", name);
    }
}

static void put_check(uint8_t *block)
{
    uint32_t sum = 0;
    for (uint32_t i = 0; i < 508; i++) sum += (i + 1) * block[i];
    memcpy(block + 508, &sum, 4);
}

// The paper as it is, which must be accepted, and with one byte changed, mostly with a right check.
static void check_papers(const char *name, Bytes set, Bytes paper)
{
    Answer answer;
    check_filing(name, set, paper);
    bench_file(set.bytes, set.size, paper.bytes, paper.size, 1, &answer);
    if (answer.number) stop("not accepted", name);
    srand(1);
    for (int k = 0; k < 40; k++) {
        uint8_t *block = paper.bytes + 512 * (rand() % (paper.size / 512)), was[512];
        memcpy(was, block, 512);
        block[k % 4 ? 4 + 4 * (rand() % 126) + k % 3 : rand() % 512] ^= 1 << rand() % 8;
        if (k % 8) put_check(block);
        check_filing(name, set, paper);
        memcpy(block, was, 512);
    }
}

static uint32_t sum_of(const Tile *list)
{
    uint32_t sum = 0;
    for (int i = 0; i < MOST_TILES; i++)
        sum = 31 * sum + (list[i].west | list[i].east << 8 | list[i].south << 16 | (uint32_t)list[i].north << 24);
    return sum;
}

static void check_reading(const char *name, Bytes text)
{
    Reading want;
    memset(&want, 0, sizeof want);
    if (!bench_read(text.bytes, text.size, 1, &want)) stop("no memory", name);
    for (int k = 0; k < 2; k++) {
        memset(tiles, 0, sizeof tiles);
        Reading r = PLAINS[k]->read_set(text.bytes, text.size, tiles);
        if (r.tiles != want.tiles || r.number != want.number || r.line != want.line || r.column != want.column
            || sum_of(tiles) != want.sum)
            stop("readings differ", name);
    }
}

static void check_texts(const char *name, Bytes text)
{
    check_reading(name, text);
    srand(1);
    for (int k = 0; k < 400; k++) {
        uint8_t *byte = text.bytes + rand() % text.size, was = *byte;
        *byte = "0123456789 \n#tpf"[rand() % 16];
        check_reading(name, text);
        *byte = was;
    }
}

static void check_trim(const char *name, Bytes set)
{
    for (int k = 0; k < 4; k++) {
        Docket *d = &dockets[0];
        const Plain *c = PLAINS[k / 2];
        if (!c->open(d, set.bytes, set.size)) stop("no C docket", name);
        if (!(k % 2 ? c->trim_parts : c->trim_slots)(d, kept)) stop("no C trim", name);
        uint32_t want = (d->pile == 6 ? bench_trimmed_four : bench_trimmed_two)(set.bytes, set.size);
        if (c->sum(d, kept) != want) stop("trims differ", name);
    }
}

// ---- times ----

// So many operations, with what comes before them: reading the set text and opening the docket.
static double time_proved(const Case *c, uint32_t times, Bytes set, Bytes paper)
{
    Answer answer;
    Reading reading;
    bool four = set.bytes[2] == '6';
    double start = now();
    if (c->what == FILING) bench_file(set.bytes, set.size, paper.bytes, paper.size, times, &answer);
    if (c->what == READ) bench_read(set.bytes, set.size, times, &reading);
    if (c->what == TRIM) (four ? bench_trim_four : bench_open)(set.bytes, set.size, times);
    return now() - start;
}

static double time_plain(const Case *c, const Plain *p, Docket *d, bool parts, uint32_t times, Bytes set, Bytes paper)
{
    double start = now();
    for (uint32_t k = 0; k < times; k++) {
        if (c->what == FILING) (parts ? p->file_parts : p->file_slots)(d, paper.bytes, paper.size);
        if (c->what == READ) p->read_set(set.bytes, set.size, tiles);
        if (c->what == TRIM) (parts ? p->trim_parts : p->trim_slots)(d, kept);
    }
    return now() - start;
}

// How many operations fill about three milliseconds, which is less than a turn on a busy processor.
static uint32_t times_for(double once)
{
    return once > 0.003 ? 1 : once < 0.000003 ? 1000 : 0.003 / once + 1;
}

static double least(double a, double b)
{
    return a < b ? a : b;
}

// The time of one operation of the proved library, without what comes before it.
static double best_proved(const Case *c, Bytes set, Bytes paper)
{
    double before = time_proved(c, c->first, set, paper), all = 1e9;
    uint32_t times = times_for(time_proved(c, c->first + 1, set, paper) - before);
    for (int round = 0; round < ROUNDS; round++) {
        before = least(before, time_proved(c, c->first, set, paper));
        all = least(all, time_proved(c, c->first + times, set, paper));
    }
    return (all - before) / times;
}

static double best_plain(const Case *c, const Plain *p, Docket *d, bool parts, Bytes set, Bytes paper)
{
    uint32_t times = times_for(time_plain(c, p, d, parts, 1, set, paper));
    double best = 1e9;
    for (int round = 0; round < ROUNDS; round++) best = least(best, time_plain(c, p, d, parts, times, set, paper));
    return best / times;
}

static void print_plain(const char *what, double proved, const double *times)
{
    int best = times[1] < times[0];
    printf("C %s %.3f ms (%s), ratio %.2f", what, times[best] * 1e3, PLAINS[best]->name, proved / times[best]);
}

static void run_case(const Case *c, Bytes set, Bytes paper)
{
    double proved = 1e9, plain[2][2] = { { 1e9, 1e9 }, { 1e9, 1e9 } };
    for (int k = 0; k < 2; k++)
        if (c->what != READ && !PLAINS[k]->open(&dockets[k], set.bytes, set.size)) stop("no C docket", c->name);
    for (int turn = 0; turn < TURNS; turn++) {
        proved = least(proved, best_proved(c, set, paper));
        for (int parts = 0; parts <= c->parts; parts++)
            for (int k = 0; k < 2; k++)
                plain[parts][k] = least(plain[parts][k], best_plain(c, PLAINS[k], &dockets[k], parts, set, paper));
    }
    printf("%s: proved %.3f ms, ", c->name, proved * 1e3);
    print_plain(c->what == READ ? "reading the same text" : "asking the same slots", proved, plain[0]);
    if (c->parts) {
        printf("; ");
        print_plain("looping over the parts", proved, plain[1]);
    }
    printf("\n");
    fflush(stdout);
}

int main(int count, char **words)
{
    if (count < 2) stop("usage: drive FOLDER [PART OF A NAME]", words[0]);
    for (int k = 0; k < CASE_COUNT; k++) {
        const Case *c = &CASES[k];
        if (count > 2 && !strstr(c->name, words[2])) continue;
        Bytes set = read_file(words[1], c->set), paper = { NULL, 0 };
        if (c->paper) paper = read_file(words[1], c->paper);
        if (c->what == FILING) check_papers(c->name, set, paper);
        if (c->what == READ) check_texts(c->name, set);
        if (c->what == TRIM) check_trim(c->name, set);
        run_case(c, set, paper);
        free(set.bytes);
        free(paper.bytes);
    }
    return 0;
}
