/* Calls the library from C, by its header alone: K7 of the numbered examples and why it is overloaded, refused records, a sheet, why its core
 * passes, two sheets side by side, and buffers that are too short. */
#include <spardimple.h>
#include <stdio.h>
#include <string.h>

static void put(uint8_t *bytes, size_t place, uint32_t number) {
    for (size_t i = 0; i < 4; i++) bytes[4 * place + i] = (uint8_t)(number >> (8 * i));
}

static void record(uint8_t *bytes, size_t place, uint32_t kind, uint32_t budget, uint32_t window, uint32_t period) {
    memset(bytes + 28 * place, 0, 28);
    put(bytes, 7 * place, kind);
    put(bytes, 7 * place + 1, budget);
    put(bytes, 7 * place + 2, window);
    put(bytes, 7 * place + 3, period);
}

static void show(const char *name, uint64_t answer) {
    printf("%s\t%u\t%u\n", name, (unsigned)spardimple_which(answer), (unsigned)spardimple_carries(answer));
}

/* A text with the byte behind it. */
static void text(const uint8_t *bytes, uint64_t answer) {
    fwrite(bytes, 1, spardimple_carries(answer) + 1, stdout);
    putchar('\n');
}

int main(void) {
    uint8_t records[56], costs[36] = {0}, listing[128], out[128];
    const uint8_t sheet[] = "machine\t1\t1\ncost\t0\t0\t0\t0\t0\t0\t0\t0\t0\npart\tp\t1\t2\t2\t0\t0\t0\nfit\tt\tp\n";
    const uint8_t other[] = "machine\t1\t1\ncost\t0\t0\t0\t0\t0\t0\t0\t0\t0\npart\tp\t1\t2\t3\t0\t0\t0\nfit\tt\tp\n";
    put(costs, 3, 4);
    record(records, 0, 0, 8, 10, 50);
    record(records, 1, 0, 1, 12, 50);
    show("K7", verdict(records, 56, costs, 36));
    show("the second alone", verdict(records + 28, 28, costs, 36));
    show("27 bytes", verdict(records, 27, costs, 36));

    memset(out, '.', sizeof out);
    show("why, a short buffer", why_records(records, 56, costs, 36, out, 77));
    show("why, 35 bytes", why_records(records, 56, costs, 35, out, sizeof out));
    printf("%.8s\n", (const char *)out);
    uint64_t why = why_records(records, 56, costs, 36, out, sizeof out);
    show("why", why);
    text(out, why);
    for (uint64_t length = 9; length <= 12; length++) show("demand", demand_at(records, 56, costs, 36, length));
    show("demand, too long", demand_at(records, 56, costs, 36, 101000001));

    record(records, 1, 3, 1, 12, 50);
    show("another kind", verdict(records, 56, costs, 36));

    memset(listing, '.', sizeof listing);
    uint64_t answer = plan_listing(sheet, sizeof sheet - 1, listing, sizeof listing);
    show("a sheet", answer);
    text(listing, answer);
    memset(listing, '.', sizeof listing);
    show("a short buffer", plan_listing(sheet, sizeof sheet - 1, listing, 8));
    show("a cut sheet", plan_listing(sheet, sizeof sheet - 2, listing, sizeof listing));
    printf("%.8s\n", (const char *)listing);

    memset(out, '.', sizeof out);
    show("no such core", why_core(sheet, sizeof sheet - 1, 2, out, sizeof out));
    show("why, a cut sheet", why_core(sheet, sizeof sheet - 2, 1, out, sizeof out));
    show("why, a short buffer", why_core(sheet, sizeof sheet - 1, 1, out, 50));
    printf("%.8s\n", (const char *)out);
    why = why_core(sheet, sizeof sheet - 1, 1, out, sizeof out);
    show("why", why);
    text(out, why);

    memset(out, '.', sizeof out);
    show("diff, both cut", diff_listing(sheet, sizeof sheet - 2, sheet, 0, out, sizeof out));
    show("diff, the second cut", diff_listing(sheet, sizeof sheet - 1, sheet, sizeof sheet - 2, out, sizeof out));
    show("diff, a short buffer", diff_listing(sheet, sizeof sheet - 1, other, sizeof other - 1, out, 60));
    printf("%.8s\n", (const char *)out);
    uint64_t diff = diff_listing(sheet, sizeof sheet - 1, other, sizeof other - 1, out, sizeof out);
    show("diff", diff);
    text(out, diff);
    return fflush(stdout) != 0;
}
