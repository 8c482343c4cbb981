/* The works of crates/kk_yard in plain C, for bench/ground.py: windows of four bits, and no special instructions.

     cc -O3 -march=x86-64-v2 -DM=31 -DLOW=9 -o yardstick yardstick.c
     yardstick WORK ROUNDS     prints a sum over the results, which is the one that kk_yard prints

   It is built for one field, with the modulus X^M + LOW, and for one code, of L points and K symbols, while kk takes any. The
   algorithms are kk's; polynomials change in place. */
#include <stdbool.h>
#include <stdint.h>
#include <stdio.h>
#include <stdlib.h>
#include <string.h>

typedef uint64_t u64;
typedef unsigned __int128 u128;

enum { L = 24, K = 16, WIDTH = 55, DIGITS = M <= 8 ? 2 : M <= 32 ? 8 : 16 };

#define BIT(i) ((u64)1 << (i))
#define ELEMENTS (BIT(M) - 1)

/* ---- numbers that look drawn: the upper bits of the linear congruential generator of D. E. Knuth's MMIX */

static u64 draw(u64 *state, int bits) {
    *state = *state * 6364136223846793005u + 1442695040888963407u;
    return *state >> (64 - bits);
}

static u64 mixed(u64 sum, u64 result) {
    return 31 * sum + result;
}

static u64 mixed_all(u64 sum, const u64 *results, int count) {
    for (int i = 0; i < count; i++) sum = mixed(sum, results[i]);
    return sum;
}

/* ---- the field GF(2^M) */

#if M <= 32
typedef u64 product;
#else
typedef u128 product;
#endif

/* The remainder: what is above place M comes back at the places of LOW, and then what is above it still. The places of LOW are
   below M / 2 + 1, so that is all. */
static inline u64 reduced(product p) {
    for (int fold = 0; fold < 2; fold++) {
        u64 high = p >> M;
        p &= ELEMENTS;
        for (u64 ones = LOW; ones; ones &= ones - 1) p ^= (product)high << __builtin_ctzll(ones);
    }
    return p;
}

static inline u64 mul(u64 a, u64 b) {
    product window[16] = {0, a}, p = 0;
    for (int v = 2; v < 16; v++) window[v] = window[v / 2] << 1 ^ (v % 2 ? a : 0);
    for (int i = DIGITS - 1; i >= 0; i--) p = p << 4 ^ window[b >> 4 * i & 15];
    return reduced(p);
}

/* The square of v·X^(4i), at i and v. */
static u64 squares_of[DIGITS][16];

static void make_squares(void) {
    for (int i = 0; i < DIGITS; i++)
        for (u64 v = 0; v < 16; v++) squares_of[i][v] = mul(v << 4 * i & ELEMENTS, v << 4 * i & ELEMENTS);
}

static inline u64 square(u64 a) {
    u64 sum = 0;
    for (int i = 0; i < DIGITS; i++) sum ^= squares_of[i][a >> 4 * i & 15];
    return sum;
}

/* The inverse of a, and 0 at 0: a^(2^M - 2), by the digits of M - 1 (Itoh and Tsujii). */
static u64 inverse(u64 a) {
    int top = 0;
    while ((M - 1) >> (top + 1)) top++;
    u64 power = a;
    for (int i = top - 1; i >= 0; i--) {
        u64 other = power;
        for (int n = (M - 1) >> (i + 1); n > 0; n--) other = square(other);
        power = mul(other, power);
        if ((M - 1) >> i & 1) power = mul(square(power), a);
    }
    return square(power);
}

/* ---- the span of rows, by its reduced row echelon form */

struct space {
    int rank;
    u64 rows[64], leads[64];  /* each row and its leading bit, in the order of the inserts */
    u64 all_leads, ones;      /* the sum of these bits, and where a row may have a 1 */
};

static void clear(struct space *s) {
    s->rank = 0;
    s->all_leads = s->ones = 0;
}

static void insert(struct space *s, u64 v) {
    u64 left = v;
    if (v & s->all_leads)
        for (int i = 0; i < s->rank; i++) left ^= v & s->leads[i] ? s->rows[i] : 0;
    if (left == 0) return;
    u64 lead = BIT(63 - __builtin_clzll(left));
    if (s->ones & lead)
        for (int i = 0; i < s->rank; i++) s->rows[i] ^= s->rows[i] & lead ? left : 0;
    s->rows[s->rank] = left;
    s->leads[s->rank++] = lead;
    s->all_leads |= lead;
    s->ones |= left;
}

/* The sum of the reduced rows and the rank. */
static u64 sum_of_space(const struct space *s) {
    u64 sum = s->rank;
    for (int i = 0; i < s->rank; i++) sum ^= s->rows[i];
    return sum;
}

/* The rows from the highest leading bit down. */
static void sort(const struct space *s, u64 *rows) {
    u64 places[64];
    for (int i = 0; i < s->rank; i++) places[__builtin_ctzll(s->leads[i])] = s->rows[i];
    for (int lead = 63; lead >= 0; lead--)
        if (s->all_leads >> lead & 1) *rows++ = places[lead];
}

/* ---- linearised polynomials */

enum { MOST = 128 };

struct poly {
    int len;  /* the coefficients from here on are 0, and the one before isn't */
    u64 c[MOST];
};

static void trim(struct poly *p) {
    while (p->len > 0 && p->c[p->len - 1] == 0) p->len--;
}

static u64 value(const u64 *c, int len, u64 x) {
    u64 sum = 0;
    for (int i = 0; i < len; i++) {
        sum ^= mul(c[i], x);
        x = square(x);
    }
    return sum;
}

/* The square plus d times the polynomial. */
static void raise(struct poly *p, u64 d) {
    if (p->len == 0) return;
    p->c[p->len] = square(p->c[p->len - 1]);
    for (int i = p->len - 1; i > 0; i--) p->c[i] = square(p->c[i - 1]) ^ mul(d, p->c[i]);
    p->c[0] = mul(d, p->c[0]);
    p->len++;
}

/* a times the polynomial plus b times another. */
static void combine(struct poly *p, u64 a, const struct poly *other, u64 b) {
    for (int i = 0; i < p->len; i++) p->c[i] = mul(a, p->c[i]);
    for (; p->len < other->len; p->len++) p->c[p->len] = 0;
    for (int i = 0; i < other->len; i++) p->c[i] ^= mul(b, other->c[i]);
    trim(p);
}

/* ---- interpolation and division (Kötter and Kschischang) */

struct bi_poly {
    struct poly x, y;
};

struct interp {
    struct bi_poly by_x, by_y;  /* led by a term in x, and by one in y */
};

static void begin(struct interp *s) {
    s->by_x.x.len = s->by_y.y.len = 1;
    s->by_x.y.len = s->by_y.x.len = 0;
    s->by_x.x.c[0] = s->by_y.y.c[0] = 1;
}

static bool x_is_least(const struct interp *s) {
    return s->by_x.x.len < s->by_y.y.len + K;
}

static u64 value_at(const struct bi_poly *q, u64 x, u64 y) {
    return value(q->x.c, q->x.len, x) ^ value(q->y.c, q->y.len, y);
}

static void raise_both(struct bi_poly *q, u64 d) {
    raise(&q->x, d);
    raise(&q->y, d);
}

static void combine_both(struct bi_poly *q, u64 a, const struct bi_poly *other, u64 b) {
    combine(&q->x, a, &other->x, b);
    combine(&q->y, a, &other->y, b);
}

static void give(struct interp *s, u64 x, u64 y) {
    u64 v = value_at(&s->by_x, x, y), w = value_at(&s->by_y, x, y);
    bool raises_x = v && (!w || x_is_least(s));
    if (v && w && raises_x) combine_both(&s->by_y, v, &s->by_x, w);
    if (v && w && !raises_x) combine_both(&s->by_x, w, &s->by_y, v);
    if (raises_x) raise_both(&s->by_x, v);
    else if (w) raise_both(&s->by_y, w);
}

static const struct bi_poly *least(const struct interp *s) {
    return x_is_least(s) ? &s->by_x : &s->by_y;
}

/* ---- the code of L points and K symbols: decoding and encoding */

/* The message that the polynomial gives: the left quotient of its parts, from the low end. */
static bool divide(const struct bi_poly *q, u64 *u) {
    u64 remainder[MOST] = {0};
    if (q->y.len == 0 || q->y.c[0] == 0) return false;
    memcpy(remainder, q->x.c, q->x.len * sizeof *remainder);
    u64 over = inverse(q->y.c[0]);
    for (int s = 0; s < K; s++) {
        u64 power = u[s] = mul(remainder[s], over);
        for (int j = 0; j < q->y.len && s + j < K; j++) {
            remainder[s + j] ^= mul(q->y.c[j], power);
            power = square(power);
        }
    }
    return true;
}

/* How far y is from the value at x. */
static u64 offset(const u64 *u, u64 row) {
    return value(u, K, row >> M) ^ (row & ELEMENTS);
}

static bool is_part(const u64 *rows, int count, const u64 *u) {
    for (int i = 0; i < count; i++)
        if (rows[i] >> M >> L || offset(u, rows[i])) return false;
    return true;
}

static bool is_near(const u64 *rows, int count, const u64 *u) {
    struct space offsets;
    clear(&offsets);
    for (int i = 0; i < count; i++) insert(&offsets, offset(u, rows[i]));
    int injected = offsets.rank, erased = L - (count - injected);
    return erased + injected <= L - K;
}

static void give_rows(struct interp *s, const u64 *rows, int count) {
    for (int i = 0; i < count; i++) give(s, rows[i] >> M, rows[i] & ELEMENTS);
}

static bool decode(const struct space *s, u64 *u) {
    static struct interp interp;
    u64 rows[64];
    int count = s->rank;
    sort(s, rows);
    if (count < K || count > 2 * L - K) return false;
    begin(&interp);
    give_rows(&interp, rows, K);
    if (divide(least(&interp), u) && is_part(rows, count, u)) return true;
    give_rows(&interp, rows + K, count - K);
    return divide(least(&interp), u) && is_near(rows, count, u);
}

static void encode(const u64 *u, u64 *rows) {
    for (int i = 0; i < L; i++) rows[i] = BIT(M + i) | value(u, K, BIT(i));
}

/* The values at the points of digit `at` of symbol j. */
static u64 terms[K][DIGITS][16][L];

static void make_terms(void) {
    for (int i = 0; i < L; i++) {
        u64 power = BIT(i);
        for (int j = 0; j < K; j++, power = square(power))
            for (int at = 0; at < DIGITS; at++)
                for (u64 v = 0; v < 16; v++) terms[j][at][v][i] = mul(v << 4 * at & ELEMENTS, power);
    }
}

/* Not inlined, since gcc then leaves it one word at a time. */
static __attribute__((noinline)) void add(u64 *restrict sums, const u64 *restrict term) {
    for (int i = 0; i < L; i++) sums[i] ^= term[i];
}

static void encode_by_terms(const u64 *u, u64 *rows) {
    u64 sums[L];
    for (int i = 0; i < L; i++) sums[i] = BIT(M + i);
    for (int j = 0; j < K; j++) {
        u64 digits = u[j];
        for (int at = 0; at < DIGITS; at++, digits >>= 4) add(sums, terms[j][at][digits & 15]);
    }
    memcpy(rows, sums, sizeof sums);
}

/* ---- the works */

static void draw_symbols(u64 *state, u64 u[K]) {
    for (int i = 0; i < K; i++) u[i] = draw(state, M);
}

static u64 products(long rounds) {
    u64 state = 1, a = draw(&state, M), b = draw(&state, M);
    for (; rounds > 0; rounds--) {
        u64 c = mul(a, b);
        a = b;
        b = c;
    }
    return b;
}

static u64 squares(long rounds) {
    u64 state = 1, a = draw(&state, M);
    for (; rounds > 0; rounds--) a = square(a);
    return a;
}

static u64 inverses(long rounds) {
    u64 state = 1, sum = 0;
    for (; rounds > 0; rounds--) sum = mixed(sum, inverse(draw(&state, M)));
    return sum;
}

static u64 dense(long rounds) {
    u64 state = 1, sum = 0;
    for (; rounds > 0; rounds--) {
        struct space s;
        clear(&s);
        for (int i = 0; i < 63; i++) insert(&s, draw(&state, 63));
        sum = mixed(sum, sum_of_space(&s));
    }
    return sum;
}

static u64 sent(long rounds) {
    u64 state = 1, sum = 0;
    for (; rounds > 0; rounds--) {
        struct space s;
        clear(&s);
        for (int i = 0; i < L; i++) insert(&s, BIT(M + i) | draw(&state, M));
        sum = mixed(sum, sum_of_space(&s));
    }
    return sum;
}

/* The rows of a message, recoded by independent combinations, with drawn rows in place of the last ones. */
static void receive(u64 *state, int injected, u64 received[L]) {
    u64 u[K], rows[L];
    draw_symbols(state, u);
    encode(u, rows);
    for (int i = 0; i < L; i++) {
        u64 chosen = (draw(state, L) >> i | 1) << i;
        received[i] = i + injected < L ? 0 : draw(state, WIDTH);
        for (int j = 0; j < L && i + injected < L; j++)
            if (chosen >> j & 1) received[i] ^= rows[j];
    }
}

enum { RECEPTIONS = 8 };

static u64 receptions[RECEPTIONS][L];

static void receive_all(int injected) {
    u64 state = 1;
    for (int i = 0; i < RECEPTIONS; i++) receive(&state, injected, receptions[i]);
}

static void span_rows(struct space *s, const u64 rows[L]) {
    clear(s);
    for (int i = 0; i < L; i++) insert(s, rows[i]);
}

static u64 recoded(long rounds) {
    u64 sum = 0;
    receive_all(0);
    for (long round = 0; round < rounds; round++) {
        struct space s;
        span_rows(&s, receptions[round % RECEPTIONS]);
        sum = mixed(sum, sum_of_space(&s));
    }
    return sum;
}

static u64 values(long rounds) {
    u64 state = 1, sum = 0, c[K];
    draw_symbols(&state, c);
    for (; rounds > 0; rounds--) sum = mixed(sum, value(c, K, draw(&state, M)));
    return sum;
}

static u64 interpolations(long rounds) {
    static struct interp s;
    u64 state = 1, sum = 0;
    for (; rounds > 0; rounds--) {
        begin(&s);
        for (int i = 0; i < L; i++) {
            u64 x = draw(&state, M);
            give(&s, x, draw(&state, M));
        }
        const struct bi_poly *q = least(&s);
        sum = mixed(sum, mixed_all(mixed_all(0, q->x.c, q->x.len), q->y.c, q->y.len));
    }
    return sum;
}

static u64 encodings(long rounds, void (*by)(const u64 *, u64 *)) {
    u64 state = 1, sum = 0;
    for (; rounds > 0; rounds--) {
        u64 u[K], rows[L], all = 0;
        draw_symbols(&state, u);
        by(u, rows);
        for (int i = 0; i < L; i++) all ^= rows[i];
        sum = mixed(sum, all);
    }
    return sum;
}

static u64 decodings(int injected, long rounds) {
    u64 sum = 0;
    receive_all(injected);
    for (long round = 0; round < rounds; round++) {
        struct space s;
        u64 u[K];
        span_rows(&s, receptions[round % RECEPTIONS]);
        if (decode(&s, u)) sum = mixed_all(sum, u, K);
    }
    return sum;
}

static u64 result_of(const char *work, long rounds) {
    if (strcmp(work, "product") == 0) return products(rounds);
    if (strcmp(work, "square") == 0) return squares(rounds);
    if (strcmp(work, "inverse") == 0) return inverses(rounds);
    if (strcmp(work, "dense") == 0) return dense(rounds);
    if (strcmp(work, "sent") == 0) return sent(rounds);
    if (strcmp(work, "recoded") == 0) return recoded(rounds);
    if (strcmp(work, "values") == 0) return values(rounds);
    if (strcmp(work, "interpolate") == 0) return interpolations(rounds);
    if (strcmp(work, "products") == 0) return encodings(rounds, encode);
    if (strcmp(work, "decode") == 0) return decodings(0, rounds);
    if (strcmp(work, "errors") == 0) return decodings(4, rounds);
    if (strcmp(work, "encode") == 0) {
        make_terms();
        return encodings(rounds, encode_by_terms);
    }
    fprintf(stderr, "yardstick: no such work\n");
    exit(1);
}

int main(int words, char **word) {
    if (words != 3) return 1;
    make_squares();
    printf("%llu\n", (unsigned long long)result_of(word[1], atol(word[2])));
    return 0;
}
