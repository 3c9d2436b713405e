/* Asks MINPACK-1: one question to a line on standard input, one answer to a line on standard output.
 *
 * Numbers are hex, doubles as 16 digits, every NaN 7FF8000000000000. Matrices stand column by column; places in an order list count
 * from 0. Questions, and what the answer has after the same letter:
 *
 *   E n x..                             ENORM: the norm
 *   Q m n a..                           QRFAC with pivoting: rdiag.. acnorm.. order.. a..
 *   B m n a.. b..                       LMDER's first step, m >= n: qtf.., the transformed residuals
 *   S n r.. order.. diag.. qtb..        QRSOLV: x.. sdiag.. r..
 *   P n r.. order.. diag.. qtb.. delta par
 *                                       LMPAR: par x.. K N norm.. damping..: K the number of its calls of QRSOLV, N and norm.. the
 *                                       number and the answers of its calls of ENORM, damping.. the diagonals given to QRSOLV (K times n)
 *   q, p                                as Q and P, with document 01's epsmch and dwarf in place of DPMPAR's
 *
 * Link with --wrap for qrsolv_, enorm_, dpmpar_ and lmpar_: MINPACK's own calls of these then come by here.
 */
#include <inttypes.h>
#include <math.h>
#include <stdbool.h>
#include <stdio.h>
#include <stdlib.h>
#include <string.h>

enum { ROWS = 128, COLUMNS = 16, SQUARE = COLUMNS * COLUMNS, NORM = 4096, TRIALS = 16 };

typedef void model(const int *m, const int *n, const double *x, double *fvec, double *fjac, const int *ldfjac, int *iflag);

double enorm_(const int *n, const double *x);
void qrfac_(const int *m, const int *n, double *a, const int *lda, const int *pivot, int *ipvt, const int *lipvt, double *rdiag,
            double *acnorm, double *wa);
void qrsolv_(const int *n, double *r, const int *ldr, const int *ipvt, const double *diag, const double *qtb, double *x, double *sdiag,
             double *wa);
void lmpar_(const int *n, double *r, const int *ldr, const int *ipvt, const double *diag, const double *qtb, const double *delta,
            double *par, double *x, double *sdiag, double *wa1, double *wa2);
void lmder_(model *fcn, const int *m, const int *n, double *x, double *fvec, double *fjac, const int *ldfjac, const double *ftol,
            const double *xtol, const double *gtol, const int *maxfev, double *diag, const int *mode, const double *factor,
            const int *nprint, int *info, int *nfev, int *njev, int *ipvt, double *qtf, double *wa1, double *wa2, double *wa3, double *wa4);

double __real_enorm_(const int *n, const double *x);
double __real_dpmpar_(const int *i);
void __real_qrsolv_(const int *n, double *r, const int *ldr, const int *ipvt, const double *diag, const double *qtb, double *x,
                    double *sdiag, double *wa);
void __real_lmpar_(const int *n, double *r, const int *ldr, const int *ipvt, const double *diag, const double *qtb, const double *delta,
                   double *par, double *x, double *sdiag, double *wa1, double *wa2);

/* What the wrapped routines saw since the last question. */
static struct {
    bool document01;
    int calls, norms;
    double norm[4 * TRIALS];
    double damping[TRIALS * COLUMNS];
} seen;

static const double *jacobian, *residuals;

double __wrap_enorm_(const int *n, const double *x) {
    double norm = __real_enorm_(n, x);
    if (seen.norms < 4 * TRIALS) seen.norm[seen.norms] = norm;
    seen.norms++;
    return norm;
}

double __wrap_dpmpar_(const int *i) {
    if (!seen.document01) return __real_dpmpar_(i);
    return *i == 1 ? 0x1p-52 : *i == 2 ? 0x1p-1022 : 0x1.fffffffffffffp1023;
}

void __wrap_qrsolv_(const int *n, double *r, const int *ldr, const int *ipvt, const double *diag, const double *qtb, double *x,
                    double *sdiag, double *wa) {
    if (seen.calls < TRIALS) memcpy(seen.damping + seen.calls * *n, diag, *n * sizeof *diag);
    seen.calls++;
    __real_qrsolv_(n, r, ldr, ipvt, diag, qtb, x, sdiag, wa);
}

static bool in_lmder;

/* By the time LMDER searches, the transformed residuals are there: nothing more is wanted of it. */
void __wrap_lmpar_(const int *n, double *r, const int *ldr, const int *ipvt, const double *diag, const double *qtb, const double *delta,
                   double *par, double *x, double *sdiag, double *wa1, double *wa2) {
    if (in_lmder)
        memset(x, 0, *n * sizeof *x);
    else
        __real_lmpar_(n, r, ldr, ipvt, diag, qtb, delta, par, x, sdiag, wa1, wa2);
}

static void fail(const char *why) {
    fprintf(stderr, "minpack driver: %s\n", why);
    exit(2);
}

static char *at;

static uint64_t number(void) {
    char *end;
    uint64_t k = strtoull(at, &end, 16);
    if (end == at) fail("a number is missing");
    at = end;
    return k;
}

static int size(int most) {
    uint64_t k = number();
    if (k > (uint64_t)most) fail("a size is too large");
    return (int)k;
}

static void doubles(double *v, int count) {
    for (int i = 0; i < count; i++) {
        uint64_t bits = number();
        memcpy(v + i, &bits, sizeof bits);
    }
}

static void say(const double *v, int count) {
    for (int i = 0; i < count; i++) {
        uint64_t bits;
        memcpy(&bits, v + i, sizeof bits);
        printf(" %016" PRIX64, isnan(v[i]) ? UINT64_C(0x7FF8000000000000) : bits);
    }
}

static void order_in(int *ipvt, int n) {
    for (int j = 0; j < n; j++) ipvt[j] = 1 + size(n - 1);
}

static void ask_enorm(void) {
    static double x[NORM];
    int n = size(NORM);
    doubles(x, n);
    double norm = enorm_(&n, x);
    printf("E");
    say(&norm, 1);
}

static void ask_qrfac(char letter) {
    static double a[ROWS * COLUMNS];
    double rdiag[COLUMNS], acnorm[COLUMNS], wa[COLUMNS];
    int ipvt[COLUMNS], m = size(ROWS), n = size(COLUMNS), pivot = 1;
    doubles(a, m * n);
    qrfac_(&m, &n, a, &m, &pivot, ipvt, &n, rdiag, acnorm, wa);
    printf("%c", letter);
    say(rdiag, n);
    say(acnorm, n);
    for (int j = 0; j < n; j++) printf(" %X", ipvt[j] - 1);
    say(a, m * n);
}

/* The residuals, then the Jacobian, then an end. */
static void fcn(const int *m, const int *n, const double *x, double *fvec, double *fjac, const int *ldfjac, int *iflag) {
    (void)x, (void)ldfjac;
    if (*iflag == 2)
        memcpy(fjac, jacobian, (size_t)*m * *n * sizeof *fjac);
    else if (residuals)
        memcpy(fvec, residuals, *m * sizeof *fvec), residuals = NULL;
    else
        *iflag = -1;
}

static void ask_lmder(void) {
    static double a[ROWS * COLUMNS], b[ROWS], fvec[ROWS], fjac[ROWS * COLUMNS];
    double x[COLUMNS] = {0}, diag[COLUMNS], qtf[COLUMNS], wa1[COLUMNS], wa2[COLUMNS], wa3[COLUMNS], wa4[ROWS];
    int ipvt[COLUMNS], m = size(ROWS), n = size(COLUMNS), maxfev = 10, mode = 2, nprint = 0, info, nfev, njev;
    double tolerance = 0, factor = 1;
    doubles(a, m * n);
    doubles(b, m);
    if (m < n) fail("LMDER takes no m < n");
    for (int j = 0; j < n; j++) diag[j] = 1;
    jacobian = a, residuals = b, in_lmder = true;
    lmder_(fcn, &m, &n, x, fvec, fjac, &m, &tolerance, &tolerance, &tolerance, &maxfev, diag, &mode, &factor, &nprint, &info, &nfev, &njev,
           ipvt, qtf, wa1, wa2, wa3, wa4);
    in_lmder = false;
    if (info == 0) fail("LMDER refused its arguments");
    printf("B");
    say(qtf, n);
}

static void ask_qrsolv(void) {
    double r[SQUARE], diag[COLUMNS], qtb[COLUMNS], x[COLUMNS], sdiag[COLUMNS], wa[COLUMNS];
    int ipvt[COLUMNS], n = size(COLUMNS);
    doubles(r, n * n);
    order_in(ipvt, n);
    doubles(diag, n);
    doubles(qtb, n);
    qrsolv_(&n, r, &n, ipvt, diag, qtb, x, sdiag, wa);
    printf("S");
    say(x, n);
    say(sdiag, n);
    say(r, n * n);
}

static void ask_lmpar(char letter) {
    double r[SQUARE], diag[COLUMNS], qtb[COLUMNS], x[COLUMNS], sdiag[COLUMNS], wa1[COLUMNS], wa2[COLUMNS], delta, par;
    int ipvt[COLUMNS], n = size(COLUMNS);
    doubles(r, n * n);
    order_in(ipvt, n);
    doubles(diag, n);
    doubles(qtb, n);
    doubles(&delta, 1);
    doubles(&par, 1);
    lmpar_(&n, r, &n, ipvt, diag, qtb, &delta, &par, x, sdiag, wa1, wa2);
    if (seen.calls > TRIALS || seen.norms > 4 * TRIALS) fail("LMPAR made more calls than it says it does");
    printf("%c", letter);
    say(&par, 1);
    say(x, n);
    printf(" %X %X", seen.calls, seen.norms);
    say(seen.norm, seen.norms);
    say(seen.damping, seen.calls * n);
}

static void ask(char letter) {
    memset(&seen, 0, sizeof seen);
    seen.document01 = letter == 'q' || letter == 'p';
    switch (letter) {
    case 'E': ask_enorm(); break;
    case 'Q': case 'q': ask_qrfac(letter); break;
    case 'B': ask_lmder(); break;
    case 'S': ask_qrsolv(); break;
    case 'P': case 'p': ask_lmpar(letter); break;
    default: fail("no such question");
    }
    putchar('\n');
}

int main(void) {
    char *line = NULL;
    size_t room = 0;
    while (getline(&line, &room, stdin) > 0) {
        at = line + 1;
        ask(line[0]);
    }
    free(line);
    return fflush(stdout) == 0 ? 0 : 2;
}
