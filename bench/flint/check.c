/* R1 to R3 and the count of a certificate with FLINT's nmod_poly, straightforwardly: g and N are made polynomials, R2's N and both sides of R3 are computed
 * by products, and compared; the count is the degree of a greatest common divisor. values holds p, A, B, A~, B~, l, sigma; g has d + 1 coefficients and n
 * has 2d + 2, all below p, and p is a prime. */
#include <stdbool.h>
#include <stdint.h>
#include <flint/nmod_poly.h>

static void set(nmod_poly_t a, const uint32_t *from, slong count)
{
    nmod_poly_fit_length(a, count);
    for (slong i = 0; i < count; i++)
        a->coeffs[i] = from[i];
    _nmod_poly_set_length(a, count);
    _nmod_poly_normalise(a);
}

static void rule_two(nmod_poly_t m, const uint32_t *values, const nmod_poly_t f, const nmod_poly_t g, const nmod_poly_t dg, const nmod_poly_t s)
{
    uint32_t p = values[0], a = values[1], l = values[5], sigma = values[6];
    uint32_t line[2] = {sigma ? p - sigma : 0, l % p}, slope[3] = {a, 0, 3};
    nmod_poly_t t, u;
    nmod_poly_init(t, p);
    nmod_poly_init(u, p);
    /* (l x - sigma) g^2 */
    set(t, line, 2);
    nmod_poly_mul(m, t, s);
    /* - 2 (3x^2 + A) g g' */
    set(t, slope, 3);
    nmod_poly_mul(u, g, dg);
    nmod_poly_mul(u, t, u);
    nmod_poly_scalar_mul_nmod(u, u, 2);
    nmod_poly_sub(m, m, u);
    /* - 4 f (g g'' - g'^2) */
    nmod_poly_derivative(t, dg);
    nmod_poly_mul(t, g, t);
    nmod_poly_mul(u, dg, dg);
    nmod_poly_sub(t, t, u);
    nmod_poly_mul(t, f, t);
    nmod_poly_scalar_mul_nmod(t, t, 4);
    nmod_poly_sub(m, m, t);
    nmod_poly_clear(t);
    nmod_poly_clear(u);
}

static int rule_three(const uint32_t *values, const nmod_poly_t f, const nmod_poly_t g, const nmod_poly_t dg, const nmod_poly_t s, const nmod_poly_t n)
{
    uint32_t p = values[0];
    nmod_poly_t left, right, t;
    nmod_poly_init(left, p);
    nmod_poly_init(right, p);
    nmod_poly_init(t, p);
    /* f (N' g - 2 N g')^2 */
    nmod_poly_derivative(left, n);
    nmod_poly_mul(left, left, g);
    nmod_poly_mul(t, n, dg);
    nmod_poly_scalar_mul_nmod(t, t, 2);
    nmod_poly_sub(left, left, t);
    nmod_poly_mul(left, left, left);
    nmod_poly_mul(left, f, left);
    /* N (N^2 + A~ g^4) + B~ g^4 g^2 */
    nmod_poly_mul(t, s, s);
    nmod_poly_scalar_mul_nmod(right, t, values[3]);
    nmod_poly_mul(t, t, s);
    nmod_poly_scalar_mul_nmod(t, t, values[4]);
    nmod_poly_t square;
    nmod_poly_init(square, p);
    nmod_poly_mul(square, n, n);
    nmod_poly_add(right, right, square);
    nmod_poly_mul(right, n, right);
    nmod_poly_add(right, right, t);
    int equal = nmod_poly_equal(left, right);
    nmod_poly_clear(left);
    nmod_poly_clear(right);
    nmod_poly_clear(t);
    nmod_poly_clear(square);
    return equal;
}

/* How many roots a monic g has in the field: the degree of its greatest common divisor with x^p - x. x - u has one. */
static slong count_of(const nmod_poly_t g)
{
    slong d = nmod_poly_degree(g);
    if (d == 1)
        return 1;
    nmod_poly_t inverse, x;
    nmod_poly_init_mod(inverse, g->mod);
    nmod_poly_init_mod(x, g->mod);
    nmod_poly_reverse(inverse, g, d + 1);
    nmod_poly_inv_series(inverse, inverse, d + 1);
    nmod_poly_powmod_x_ui_preinv(x, g->mod.n, g, inverse);
    nmod_poly_set_coeff_ui(x, 1, nmod_sub(nmod_poly_get_coeff_ui(x, 1), 1, g->mod));
    nmod_poly_gcd(x, x, g);
    slong count = nmod_poly_degree(x);
    nmod_poly_clear(inverse);
    nmod_poly_clear(x);
    return count;
}

static uint32_t judge(const uint32_t *values, const uint32_t *g_words, const uint32_t *n_words, bool counted, uint32_t count)
{
    uint32_t p = values[0], sigma = values[6];
    slong d = (values[5] - 1) / 2;
    uint32_t cubic[4] = {values[2], values[1], 0, 1};
    uint32_t answer = 0;
    nmod_poly_t f, g, n, dg, s, m;
    nmod_poly_init(f, p);
    nmod_poly_init(g, p);
    nmod_poly_init(n, p);
    nmod_poly_init(dg, p);
    nmod_poly_init(s, p);
    nmod_poly_init(m, p);
    set(f, cubic, 4);
    set(g, g_words, d + 1);
    set(n, n_words, 2 * d + 2);
    mp_limb_t second = nmod_poly_get_coeff_ui(g, d - 1);
    if (nmod_poly_degree(g) != d || nmod_poly_get_coeff_ui(g, d) != 1 || nmod_neg(nmod_add(second, second, g->mod), g->mod) != sigma)
        answer = 8;
    else {
        nmod_poly_derivative(dg, g);
        nmod_poly_mul(s, g, g);
        rule_two(m, values, f, g, dg, s);
        if (!nmod_poly_equal(m, n) || (counted && count_of(g) != count))
            answer = 9;
        else if (!rule_three(values, f, g, dg, s, n))
            answer = 10;
    }
    nmod_poly_clear(f);
    nmod_poly_clear(g);
    nmod_poly_clear(n);
    nmod_poly_clear(dg);
    nmod_poly_clear(s);
    nmod_poly_clear(m);
    return answer;
}

/* Returns 0, or 8, 9, 10 as check does. */
uint32_t flint_check(const uint32_t *values, const uint32_t *g_words, const uint32_t *n_words, uint32_t count)
{
    return judge(values, g_words, n_words, true, count);
}

/* The same without the count. */
uint32_t flint_rules(const uint32_t *values, const uint32_t *g_words, const uint32_t *n_words)
{
    return judge(values, g_words, n_words, false, 0);
}

/* The count alone, of a monic g of degree d. */
uint32_t flint_count(uint32_t p, const uint32_t *g_words, uint32_t d)
{
    nmod_poly_t g;
    nmod_poly_init(g, p);
    set(g, g_words, d + 1);
    slong count = count_of(g);
    nmod_poly_clear(g);
    return count;
}
