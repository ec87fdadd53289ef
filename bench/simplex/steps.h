/* Steps 1 to 5 at one size of numbers. plain.c includes this once for each size and says before:
 * AT(name)       the name of a function at that size
 * NUMBER         its signed numbers, NATURAL their sizes
 * PRODUCT(a, b)  of two numbers that step 4 has let pass
 * BOUND          step 4's
 * and once for both IS_BUILT(r, w, j), whether the exchange of column j builds row r */

/* ---- steps 1 to 4; w is the number of numbers of a row that can be other than 0 */

static int AT(is_violated)(uint8_t kind, NUMBER x) { return kind == 1 ? x < 0 : kind == 2 ? x != 0 : 0; }

static size_t AT(violated)(NUMBER (*t)[NUMBERS], const size_t *place, const uint8_t *kinds, size_t count)
{
    for (size_t v = 0; v < count; v++)
        if (place[v] < ROWS && AT(is_violated)(kinds[v], t[place[v]][1])) return v;
    return count;
}

static int AT(is_helping)(uint8_t kind, NUMBER c, NUMBER e)
{
    return kind == 0 ? e != 0 : kind == 1 ? (c < 0 ? e > 0 : e < 0) : 0;
}

static size_t AT(helping)(const NUMBER *r, const size_t *place, const uint8_t *kinds, size_t count)
{
    for (size_t v = 0; v < count; v++)
        if (place[v] >= ROWS && AT(is_helping)(kinds[v], r[1], r[place[v] - ROWS + 2])) return v;
    return count;
}

static int AT(small)(const NUMBER *r, size_t w)
{
    for (size_t i = 0; i < w; i++)
        if (r[i] < -BOUND || r[i] > BOUND) return 0;
    return 1;
}

static int AT(narrow)(NUMBER (*t)[NUMBERS], size_t m, size_t w, size_t j)
{
    for (size_t k = 0; k < m; k++)
        if (t[k][j + 2] != 0 && !AT(small)(t[k], w)) return 0;
    return 1;
}

/* ---- step 5 */

static NATURAL AT(magnitude)(NUMBER x) { return x < 0 ? 0 - (NATURAL)x : (NATURAL)x; }

static void AT(reduce)(NUMBER *r, size_t w)
{
    NATURAL g = 0;
    for (size_t i = 0; i < w && g != 1; i++) g = AT(gcd)(AT(magnitude)(r[i]), g);
    if (g > 1)
        for (size_t i = 0; i < w; i++) r[i] /= (NUMBER)g;
}

static void AT(solve)(NUMBER *r, size_t w, size_t j)
{
    NUMBER a = r[j + 2], d = r[0];
    if (a < 0) {
        r[0] = -a;
        r[j + 2] = -d;
    } else {
        for (size_t i = 0; i < w; i++) r[i] = -r[i];
        r[0] = a;
        r[j + 2] = d;
    }
    AT(reduce)(r, w);
}

static void AT(replace)(NUMBER *r, size_t w, size_t j, const NUMBER *p)
{
    NUMBER b = r[j + 2], m = p[0];
    r[j + 2] = 0;
    r[0] = PRODUCT(r[0], m);
    for (size_t i = 1; i < w; i++) r[i] = PRODUCT(r[i], m) + PRODUCT(b, p[i]);
    AT(reduce)(r, w);
}

static void AT(exchange)(NUMBER (*t)[NUMBERS], size_t m, size_t w, size_t i, size_t j)
{
    AT(solve)(t[i], w, j);
    for (size_t k = 0; k < m; k++)
        if (k != i && IS_BUILT(t[k], w, j)) AT(replace)(t[k], w, j, t[i]);
}

/* the answer; goes on from the pivots made already */
static answer AT(run)(const basic_set *b, NUMBER (*t)[NUMBERS], size_t *place, const uint8_t *kinds, size_t *made)
{
    size_t m = 2 * b->divs + b->cons, count = AXES + b->divs + m, w = b->divs + AXES + 2;
    for (size_t pivots = *made;; pivots++) {
        *made = pivots;
        size_t v = AT(violated)(t, place, kinds, count), u;
        if (v == count) return POINT;
        u = AT(helping)(t[place[v]], place, kinds, count);
        if (u == count) return DROPPED;
        if (pivots == PIVOTS) return LONG;
        size_t i = place[v], c = place[u];
        if (!AT(narrow)(t, m, w, c - ROWS)) return WIDE;
        AT(exchange)(t, m, w, i, c - ROWS);
        place[v] = c;
        place[u] = i;
    }
}

#undef AT
#undef NUMBER
#undef NATURAL
#undef PRODUCT
#undef BOUND
