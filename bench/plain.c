/* Plain C of the same method as the library's calls: a dense table, the scores raised by whole rows, the highest and then the first that
   has it; groups merged in place, and the rounds stopped where no division is below what is noted. See plain.h. */
#include "plain.h"

#include <string.h>

enum { MOST_NODES = 128, MOST_ROWS = 2048, FILE_MOST = 32768 };
static const uint32_t OPEN = 1u << 30;

static int say(uint64_t answer[8], uint64_t number, uint64_t place)
{
    memset(answer, 0, 8 * sizeof answer[0]);
    answer[0] = number;
    answer[1] = place;
    return number != 0;
}

/* 9, 10, 14, the rows, 18: true where the list is refused, with the answer laid out */
static int refused(uint32_t n, const uint16_t *a, size_t a_len, const uint16_t *b, size_t b_len, const uint16_t *w, size_t w_len,
                   int no_room, uint64_t answer[8])
{
    if (n == 0 || n > MOST_NODES)
        return say(answer, 9, 0);
    if (a_len != b_len || a_len != w_len || a_len > MOST_ROWS)
        return say(answer, 10, 0);
    if (no_room)
        return say(answer, 14, 0);
    uint64_t links = 0;
    for (size_t r = 0; r < a_len; r++) {
        if (a[r] >= n || b[r] >= n)
            return say(answer, 11, r);
        if (a[r] == b[r])
            return say(answer, 12, r);
        if (w[r] == 0)
            return say(answer, 13, r);
        links += w[r];
    }
    if (links > UINT32_MAX)
        return say(answer, 18, 0);
    return say(answer, 0, 0);
}

static unsigned get16(const uint8_t *s)
{
    return s[0] | (unsigned)s[1] << 8;
}

void plain_read(const uint8_t *src, size_t src_len, uint16_t *a, size_t a_len, uint16_t *b, size_t b_len, uint16_t *w, size_t w_len,
                uint64_t answer[8])
{
    if (src_len < 8 || src_len > FILE_MOST) {
        say(answer, 1, 0);
        return;
    }
    size_t end = src_len - 8;
    const uint8_t *trailer = src + end;
    if (trailer[6] != 0x4C || trailer[7] != 0x54) {
        say(answer, 2, 0);
        return;
    }
    size_t start = get16(trailer) | (size_t)get16(trailer + 2) << 16;
    if (start > end) {
        say(answer, 3, 0);
        return;
    }
    uint32_t n = 0;
    size_t rows = 0, bad_row = 0;
    uint64_t links = 0;
    unsigned bad = 0;
    int seen = 0;
    for (size_t at = start; at < end;) {
        size_t len = src[at];
        if (len < 2) {
            say(answer, 4, at);
            return;
        }
        if (len > end - at) {
            say(answer, 5, at);
            return;
        }
        unsigned kind = src[at + 1];
        if (kind == 2 && len == 8) {
            if (!seen) {
                say(answer, 7, at);
                return;
            }
            unsigned x = get16(src + at + 2), y = get16(src + at + 4), weight = get16(src + at + 6);
            if (!bad) {
                bad = x >= n || y >= n ? 11 : x == y ? 12 : weight == 0 ? 13 : 0;
                bad_row = rows;
            }
            links += weight;
            rows++;
        } else if (kind == 1 && len == 4) {
            if (seen) {
                say(answer, 7, at);
                return;
            }
            seen = 1;
            n = get16(src + at + 2);
        } else if (kind < 128) {
            say(answer, 6, at);
            return;
        }
        at += len;
    }
    if (!seen)
        say(answer, 7, end);
    else if (get16(trailer + 4) != rows)
        say(answer, 8, 0);
    else if (n == 0 || n > MOST_NODES)
        say(answer, 9, 0);
    else if (rows > MOST_ROWS)
        say(answer, 10, 0);
    else if (a_len < rows || b_len < rows || w_len < rows)
        say(answer, 14, 0);
    else if (bad)
        say(answer, bad, bad_row);
    else if (links > UINT32_MAX)
        say(answer, 18, 0);
    else {
        size_t r = 0;
        for (size_t at = start; at < end; at += src[at]) {
            if (src[at + 1] == 2) {
                a[r] = get16(src + at + 2);
                b[r] = get16(src + at + 4);
                w[r] = get16(src + at + 6);
                r++;
            }
        }
        say(answer, 0, 0);
        answer[2] = n;
        answer[3] = rows;
    }
}

/* ---- the table */

static void fill(uint32_t *table, const uint16_t *a, const uint16_t *b, const uint16_t *w, size_t rows)
{
    memset(table, 0, MOST_NODES * MOST_NODES * sizeof table[0]);
    for (size_t r = 0; r < rows; r++) {
        table[a[r] * MOST_NODES + b[r]] += w[r];
        table[b[r] * MOST_NODES + a[r]] += w[r];
    }
}

/* raises the scores by a row of the table and returns the highest */
static uint32_t add_row(uint32_t *restrict score, const uint32_t *restrict row, size_t n)
{
    uint32_t top = 0;
    for (size_t v = 0; v < n; v++) {
        score[v] += row[v];
        top = (int32_t)score[v] > (int32_t)top ? score[v] : top; /* below 2^31: vectors of plain x86-64 compare signed numbers only */
    }
    return top;
}

/* the first that has the highest score; one of the eight at a time has it or none */
static size_t first_of(const uint32_t *score, uint32_t top, size_t n)
{
    size_t v = 0;
    while (v + 8 < n) {
        unsigned hit = 0;
        for (size_t i = 0; i < 8; i++)
            hit |= score[v + i] == top;
        if (hit)
            break;
        v += 8;
    }
    while (score[v] != top)
        v++;
    return v;
}

/* takes x out of the free ones and returns the next */
static size_t place(uint32_t *score, const uint32_t *table, size_t n, size_t x)
{
    score[x] -= OPEN;
    return first_of(score, add_row(score, table + x * MOST_NODES, n), n);
}

static void order_rows(size_t n, const uint16_t *a, const uint16_t *b, const uint16_t *w, size_t rows, uint16_t *order, uint32_t *back)
{
    uint32_t table[MOST_NODES * MOST_NODES], score[MOST_NODES];
    fill(table, a, b, w, rows);
    for (size_t v = 0; v < n; v++)
        score[v] = OPEN;
    for (size_t p = 0, x = 0; p < n; p++) {
        order[p] = x;
        back[p] = score[x] - OPEN;
        if (p + 1 < n)
            x = place(score, table, n, x);
    }
}

void plain_order(uint32_t n, const uint16_t *a, size_t a_len, const uint16_t *b, size_t b_len, const uint16_t *w, size_t w_len,
                 uint16_t *order, size_t order_len, uint32_t *back, size_t back_len, uint64_t answer[8])
{
    if (refused(n, a, a_len, b, b_len, w, w_len, order_len < n || back_len < n, answer))
        return;
    order_rows(n, a, b, w, a_len, order, back);
}

void rescan_order(uint32_t n, const uint16_t *a, size_t a_len, const uint16_t *b, size_t b_len, const uint16_t *w, size_t w_len,
                  uint16_t *order, size_t order_len, uint32_t *back, size_t back_len, uint64_t answer[8])
{
    if (refused(n, a, a_len, b, b_len, w, w_len, order_len < n || back_len < n, answer))
        return;
    uint8_t placed[MOST_NODES] = {0};
    order[0] = 0;
    back[0] = 0;
    placed[0] = 1;
    for (size_t p = 1; p < n; p++) {
        uint32_t score[MOST_NODES] = {0};
        for (size_t r = 0; r < a_len; r++) {
            if (placed[a[r]])
                score[b[r]] += w[r];
            if (placed[b[r]])
                score[a[r]] += w[r];
        }
        size_t best = MOST_NODES;
        for (size_t v = 0; v < n; v++)
            if (!placed[v] && (best == MOST_NODES || score[v] > score[best]))
                best = v;
        order[p] = best;
        back[p] = score[best];
        placed[best] = 1;
    }
}

void plain_kept(uint32_t n, const uint16_t *a, size_t a_len, const uint16_t *b, size_t b_len, const uint16_t *w, size_t w_len, uint32_t k,
                uint16_t *kept, size_t kept_len, uint64_t answer[8])
{
    if (refused(n, a, a_len, b, b_len, w, w_len, kept_len < a_len, answer))
        return;
    if (k == 0) {
        say(answer, 15, 0);
        return;
    }
    uint32_t table[MOST_NODES * MOST_NODES], score[MOST_NODES], reached[MOST_NODES] = {0};
    uint16_t head[MOST_NODES], next[MOST_ROWS][2];
    uint8_t placed[MOST_NODES] = {0};
    fill(table, a, b, w, a_len);
    memset(head, 0xFF, sizeof head);
    /* each row is in the chain of both its ends; a link is 2 * row + end */
    for (size_t r = a_len; r-- > 0;) {
        next[r][0] = head[a[r]];
        head[a[r]] = 2 * r;
        next[r][1] = head[b[r]];
        head[b[r]] = 2 * r + 1;
    }
    for (size_t v = 0; v < n; v++)
        score[v] = OPEN;
    for (size_t p = 0, x = 0; p < n; p++) {
        placed[x] = 1;
        for (unsigned link = head[x]; link != 0xFFFF; link = next[link / 2][link % 2]) {
            size_t r = link / 2, y = link % 2 ? a[r] : b[r];
            if (!placed[y]) {
                uint32_t before = reached[y];
                kept[r] = before >= k ? 0 : k - before < w[r] ? k - before : w[r];
                reached[y] = before + w[r];
            }
        }
        if (p + 1 < n)
            x = place(score, table, n, x);
    }
}

/* ---- the least split */

/* puts group `gone` into group `keep` */
static void merge(uint32_t *table, size_t n, size_t keep, size_t gone)
{
    uint32_t *restrict kept = table + keep * MOST_NODES;
    const uint32_t *restrict lost = table + gone * MOST_NODES;
    for (size_t v = 0; v < n; v++)
        kept[v] += lost[v];
    kept[keep] = 0;
    kept[gone] = 0;
    for (size_t v = 0; v < n; v++) {
        table[v * MOST_NODES + keep] = kept[v];
        table[v * MOST_NODES + gone] = 0;
    }
}

/* renames the ends of the rows and leaves out those that become one */
static size_t squeeze(size_t rows, const uint16_t *name, uint16_t *x, uint16_t *y, uint16_t *z)
{
    size_t left = 0;
    for (size_t r = 0; r < rows; r++) {
        uint16_t u = name[x[r]], v = name[y[r]];
        x[left] = u;
        y[left] = v;
        z[left] = z[r];
        left += u != v;
    }
    return left;
}

/* one node for each that something hangs on, and for each that hangs on nothing; lowers *best to the fewest cables of a node */
static size_t fasten(size_t n, size_t rows, uint32_t *best, const uint16_t *x, const uint16_t *y, const uint16_t *z, uint16_t *name)
{
    uint32_t cables[MOST_NODES] = {0};
    uint16_t to[MOST_NODES];
    uint8_t held[MOST_NODES] = {0};
    for (size_t r = 0; r < rows; r++) {
        cables[x[r]] += z[r];
        cables[y[r]] += z[r];
    }
    for (size_t v = 0; v < n; v++) {
        to[v] = v;
        if (cables[v] < *best)
            *best = cables[v];
    }
    for (size_t r = 0; r < rows; r++) {
        uint16_t u = x[r], v = y[r];
        if (to[u] != u || to[v] != v)
            continue;
        if (!held[u] && cables[u] <= 2u * z[r]) {
            to[u] = v;
            held[v] = 1;
        } else if (!held[v] && cables[v] <= 2u * z[r]) {
            to[v] = u;
            held[u] = 1;
        }
    }
    size_t kept = 0;
    for (size_t v = 0; v < n; v++)
        if (to[v] == v)
            name[v] = kept++;
    for (size_t v = 0; v < n; v++)
        name[v] = name[to[v]];
    return kept;
}

/* a number that no division is below, or 0: each run of the order becomes one node, and each that something hangs on, until all is one;
   order and back are overwritten */
static uint32_t floor_of(size_t n, const uint16_t *a, const uint16_t *b, const uint16_t *w, size_t rows, uint16_t *order, uint32_t *back)
{
    uint16_t x[MOST_ROWS], y[MOST_ROWS], z[MOST_ROWS], name[MOST_NODES];
    memcpy(x, a, rows * sizeof x[0]);
    memcpy(y, b, rows * sizeof y[0]);
    memcpy(z, w, rows * sizeof z[0]);
    uint32_t best = back[n - 1];
    while (best != 0) {
        size_t nodes = 0;
        for (size_t p = 0; p < n; p++) {
            nodes += back[p] < best;
            name[order[p]] = nodes - 1;
        }
        rows = squeeze(rows, name, x, y, z);
        if (nodes > 1 && rows <= 2 * nodes) {
            nodes = fasten(nodes, rows, &best, x, y, z, name);
            rows = squeeze(rows, name, x, y, z);
        }
        if (nodes == 1)
            return best;
        if (n - nodes < n / 8)
            return 0;
        n = nodes;
        order_rows(n, x, y, z, rows, order, back);
        if (back[n - 1] < best)
            best = back[n - 1];
    }
    return 0;
}

static void note(uint64_t answer[8], const uint16_t *label, size_t n, size_t last, uint32_t value)
{
    uint64_t word[2] = {0, 0};
    for (size_t v = 0; v < n; v++)
        if (label[v] == last)
            word[v / 64] |= 1ull << (v % 64);
    answer[2] = value;
    answer[3] = word[0];
    answer[4] = word[1];
    answer[5] = __builtin_popcountll(word[0]) + __builtin_popcountll(word[1]);
}

void plain_least(uint32_t n, const uint16_t *a, size_t a_len, const uint16_t *b, size_t b_len, const uint16_t *w, size_t w_len,
                 uint64_t answer[8])
{
    if (refused(n, a, a_len, b, b_len, w, w_len, 0, answer))
        return;
    if (n == 1) {
        say(answer, 16, 0);
        return;
    }
    uint16_t label[MOST_NODES], order[MOST_NODES];
    uint32_t back[MOST_NODES];
    for (size_t v = 0; v < n; v++)
        label[v] = v;
    order_rows(n, a, b, w, a_len, order, back);
    uint16_t first = order[n - 1];
    uint32_t value = back[n - 1], low = floor_of(n, a, b, w, a_len, order, back);
    if (value <= low) {
        note(answer, label, n, first, value);
        return;
    }
    uint32_t table[MOST_NODES * MOST_NODES], score[MOST_NODES], live[MOST_NODES];
    fill(table, a, b, w, a_len);
    for (size_t v = 0; v < n; v++)
        live[v] = OPEN;
    uint32_t best = UINT32_MAX;
    for (size_t groups = n; groups > 1; groups--) {
        memcpy(score, live, sizeof score);
        size_t before = 0, last = 0;
        for (size_t p = 1; p < groups; p++) {
            before = last;
            last = place(score, table, n, before);
        }
        value = score[last] - OPEN;
        if (value < best) {
            best = value;
            note(answer, label, n, last, value);
            if (best <= low)
                return;
        }
        size_t keep = before < last ? before : last, gone = before < last ? last : before;
        merge(table, n, keep, gone);
        live[gone] = 0;
        for (size_t v = 0; v < n; v++)
            if (label[v] == gone)
                label[v] = keep;
    }
}

void plain_summary(uint32_t n, const uint16_t *a, size_t a_len, const uint16_t *b, size_t b_len, const uint16_t *w, size_t w_len,
                   uint64_t answer[8])
{
    if (refused(n, a, a_len, b, b_len, w, w_len, 0, answer))
        return;
    uint64_t links = 0, pairs = 0;
    for (size_t r = 0; r < a_len; r++) {
        uint16_t hits = 0;
        for (size_t j = 0; j < r; j++)
            hits += (a[j] == a[r]) & (b[j] == b[r]);
        pairs += hits == 0;
        links += w[r];
    }
    answer[2] = n;
    answer[3] = a_len;
    answer[4] = links;
    answer[5] = pairs;
}
