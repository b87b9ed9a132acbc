/* Every function of include/paltiehko.h once from C, on Q of document 01, with the places past the needed room. */
#include "paltiehko.h"

#include <stdio.h>
#include <string.h>

static int failed;

static void expect(const char *call, const void *got, const void *due, size_t size)
{
    if (memcmp(got, due, size) != 0) {
        printf("header: %s differs\n", call);
        failed = 1;
    }
}

#define EXPECT(call, got, ...)                       \
    do {                                             \
        __typeof__((got)[0]) due[] = {__VA_ARGS__};  \
        expect(call, got, due, sizeof due);          \
    } while (0)

int main(void)
{
    static const uint8_t file[] = {4, 1, 2, 0, 8, 2, 0, 0, 1, 0, 3, 0, 0, 0, 0, 0, 1, 0, 0x4C, 0x54};
    static const char text[] = "nodes 2 rows 1 links 3 pairs 1\norder 0 1\nleast 3\nside 1\n";
    const uint16_t a[] = {0}, b[] = {1}, w[] = {3};
    uint16_t a2[] = {7, 7}, b2[] = {7, 7}, w2[] = {7, 7}, nodes[] = {7, 7, 7}, kept[] = {7, 7};
    uint32_t back[] = {7, 7, 7}, first[] = {7, 7};
    uint8_t out[1024];
    uint64_t answer[8];

    paltiehko_read(file, sizeof file, a2, 2, b2, 2, w2, 2, answer);
    EXPECT("read", answer, 0, 0, 2, 1, 0, 0, 0, 0);
    EXPECT("read, a", a2, 0, 7);
    EXPECT("read, b", b2, 1, 7);
    EXPECT("read, w", w2, 3, 7);
    paltiehko_write(2, a, 1, b, 1, w, 1, out, sizeof out, answer);
    EXPECT("write", answer, 0, 0, 20, 0, 0, 0, 0, 0);
    expect("write, bytes", out, file, sizeof file);
    paltiehko_order(2, a, 1, b, 1, w, 1, nodes, 3, back, 3, answer);
    EXPECT("order", answer, 0, 0, 0, 0, 0, 0, 0, 0);
    EXPECT("order, nodes", nodes, 0, 1, 7);
    EXPECT("order, back counts", back, 0, 3, 7);
    paltiehko_forest(2, a, 1, b, 1, w, 1, first, 2, answer);
    EXPECT("forest", answer, 0, 0, 0, 0, 0, 0, 0, 0);
    EXPECT("forest, first numbers", first, 1, 7);
    paltiehko_kept(2, a, 1, b, 1, w, 1, 2, kept, 2, answer);
    EXPECT("kept", answer, 0, 0, 0, 0, 0, 0, 0, 0);
    EXPECT("kept, weights", kept, 2, 7);
    paltiehko_short(2, a, 1, b, 1, w, 1, 2, a2, 2, b2, 2, w2, 2, answer);
    EXPECT("short", answer, 0, 0, 1, 0, 0, 0, 0, 0);
    EXPECT("short, weights", w2, 2, 7);
    paltiehko_least(2, a, 1, b, 1, w, 1, answer);
    EXPECT("least", answer, 0, 0, 3, 2, 0, 1, 0, 0);
    paltiehko_fewer(2, a, 1, b, 1, w, 1, 3, answer);
    EXPECT("fewer than 3", answer, 17, 0, 0, 0, 0, 0, 0, 0);
    paltiehko_fewer(2, a, 1, b, 1, w, 1, 4, answer);
    EXPECT("fewer than 4", answer, 0, 0, 3, 2, 0, 1, 0, 0);
    paltiehko_summary(2, a, 1, b, 1, w, 1, answer);
    EXPECT("summary", answer, 0, 0, 2, 1, 3, 1, 0, 0);
    paltiehko_report(file, sizeof file, out, sizeof out, answer);
    EXPECT("report", answer, 0, 0, sizeof text - 1, 0, 0, 0, 0, 0);
    expect("report, text", out, text, sizeof text - 1);
    if (!failed)
        puts("header: every call of C as document 01 says");
    return failed;
}
