/* The other side of the program `speed`: the same problems, the same modes, by MINPACK's qrfac, lmpar and qrsolv, for m >= n.
 * Standard input is the same line: m, n, how many problems, and the mode, in hex. Modes: 0 makes the problems; 1 also factors and
 * transforms the residuals, as lmder does; 2 also searches, with the radius a tenth of the undamped norm; 3 does what 2 does before its
 * search; 4 factors and calls qrsolv with the scaling as the diagonal. Prints the sum that `speed` prints. */
#include <inttypes.h>
#include <stdint.h>
#include <stdio.h>
#include <string.h>

extern void qrfac_(const int *m, const int *n, double *a, const int *lda, const int *pivot, int *ipvt, const int *lipvt,
                   double *rdiag, double *acnorm, double *wa);
extern void lmpar_(const int *n, double *r, const int *ldr, const int *ipvt, const double *diag, const double *qtb,
                   const double *delta, double *par, double *x, double *sdiag, double *wa1, double *wa2);
extern void qrsolv_(const int *n, double *r, const int *ldr, const int *ipvt, const double *diag, const double *qtb, double *x,
                    double *sdiag, double *wa);
extern double enorm_(const int *n, const double *x);

enum { ROWS = 128, COLUMNS = 16 };

static double jacobian[ROWS * COLUMNS], residuals[ROWS];
static double a[ROWS * COLUMNS], qtb[ROWS], rdiag[COLUMNS], acnorm[COLUMNS], wa[ROWS];
static double diag[COLUMNS], x[COLUMNS], sdiag[COLUMNS], wa1[ROWS], wa2[ROWS];
static int ipvt[COLUMNS];
static uint64_t seed = 20261115;

/* Park and Miller's congruence. */
static void fill(double *v, int count) {
    for (int i = 0; i < count; i++) {
        seed = seed * 16807 % 2147483647;
        v[i] = (double)seed / 2147483647.0 * 2.0 - 1.0;
    }
}

static void factor(int m, int n) {
    const int pivot = 1;
    memcpy(a, jacobian, sizeof(double) * (size_t)(m * n));
    memcpy(qtb, residuals, sizeof(double) * (size_t)m);
    qrfac_(&m, &n, a, &m, &pivot, ipvt, &n, rdiag, acnorm, wa);
    for (int j = 0; j < n; j++) {
        double *column = a + m * j;
        if (column[j] != 0) {
            double sum = 0;
            for (int i = j; i < m; i++) sum += column[i] * qtb[i];
            sum = -sum / column[j];
            for (int i = j; i < m; i++) qtb[i] += column[i] * sum;
        }
        column[j] = rdiag[j];
    }
}

/* A tenth of the undamped scaled norm; R has no zero on its diagonal in these problems. */
static double radius_of(int m, int n) {
    double y[COLUMNS], scaled[COLUMNS];
    memcpy(y, qtb, sizeof(double) * (size_t)n);
    for (int j = n - 1; j >= 0; j--) {
        y[j] /= a[j + m * j];
        for (int i = 0; i < j; i++) y[i] += -y[j] * a[i + m * j];
    }
    for (int j = 0; j < n; j++) scaled[ipvt[j] - 1] = y[j] * diag[ipvt[j] - 1];
    return enorm_(&n, scaled) * 0.1;
}

/* What comes after the factoring. */
static double further(int m, int n, unsigned mode) {
    if (mode == 1) return 0;
    for (int j = 0; j < n; j++) diag[j] = acnorm[j] == 0 ? 1 : acnorm[j];
    if (mode == 4) {
        qrsolv_(&n, a, &m, ipvt, diag, qtb, x, sdiag, wa);
        return x[0];
    }
    double radius = radius_of(m, n), par = 0;
    if (mode == 3) return radius;
    lmpar_(&n, a, &m, ipvt, diag, qtb, &radius, &par, x, sdiag, wa1, wa2);
    return par + x[0];
}

static double one(int m, int n, unsigned mode) {
    fill(jacobian, m * n);
    fill(residuals, m);
    if (mode == 0) return jacobian[0];
    factor(m, n);
    double corner = rdiag[n - 1] + qtb[0];
    return corner + further(m, n, mode);
}

int main(void) {
    unsigned m, n, calls, mode;
    if (scanf("%x %x %x %x", &m, &n, &calls, &mode) != 4 || n < 1 || m < n || m > ROWS || n > COLUMNS || mode > 4) {
        fputs("m, n, problems and mode in hex; n to m rows, at most 128; 1 to 16 columns; modes 0 to 4\n", stderr);
        return 2;
    }
    double sum = 0;
    while (calls-- > 0) sum += one((int)m, (int)n, mode);
    uint64_t bits;
    memcpy(&bits, &sum, sizeof bits);
    printf("%016" PRIX64 "\n", bits);
    return 0;
}
