/* A fresh state, a scaling, a product, a step and a refusal, of one cone and of a list, from C. examples/run builds and runs it. */
#include <stdio.h>

#include "akmuzrel.h"

#define N 3

static const char *standings[] = {"inside", "on the edge", "outside", "mirrored", "not a number"};

static void print(const char *name, const double *x, size_t n) {
    printf("%s = (", name);
    for (size_t k = 0; k < n; k++) printf(k ? ", %.17g" : "%.17g", x[k]);
    printf(")\n");
}

int main(void) {
    const double s[N] = {5, 3, 0}, z[N] = {5, -3, 0}, ds[N] = {-1, 2, 0}, dz[N] = {1, 0, 2};
    double w[N], lambda[N], u[N], v[N], eta, d;
    uint8_t truth, standing;

    akm_fresh_state(w, N, lambda, N, u, N, v, N, &eta, 1, &d, 1);
    print("fresh w", w, N);
    print("fresh d", &d, 1);

    akm_soc_standing(s, N, &standing);
    printf("s is %s\n", standings[standing]);

    if (akm_soc_update_scaling(s, N, z, N, w, N, lambda, N, u, N, v, N, &eta, &d, &truth) != AKM_DONE || !truth) return 1;
    print("eta", &eta, 1);
    print("w", w, N);
    print("lambda", lambda, N);

    double y[N] = {0};
    akm_soc_mul_w(y, N, z, N, 1, 0, w, N, &eta);
    print("W*z", y, N);

    struct akm_square square;
    akm_soc_square_hs(&square, w, N, &eta);
    for (size_t row = 0; row < N; row++) print("Hs", square.rows[row], N);

    double step_z, step_s;
    akm_soc_step_length(dz, N, ds, N, z, N, s, N, 1, &step_z, &step_s);
    printf("steps %.17g and %.17g\n", step_z, step_s);

    /* a vector too short is refused, and y is as it was */
    printf("refused with %d\n", akm_soc_mul_w(y, N, z, N - 1, 1, 0, w, N, &eta));
    print("W*z", y, N);

    /* a list: two entries that are not to be negative, and behind them the cone above */
    enum { ALL = 2 + N };
    const struct akm_cone list[2] = {{0, AKM_NONNEGATIVE, 2}, {2, AKM_SECOND_ORDER, N}};
    const double all_s[ALL] = {1, 2, 5, 3, 0}, all_z[ALL] = {2, 1, 5, -3, 0};
    const double all_ds[ALL] = {1, -4, -1, 2, 0}, all_dz[ALL] = {1, 1, 1, 0, 2};
    akm_list_step_length(list, 2, 1, all_dz, ALL, all_ds, ALL, all_z, ALL, all_s, ALL, 1, &step_z, &step_s);
    printf("steps of cone 1 %.17g and %.17g\n", step_z, step_s);
    akm_whole_step_length(list, 2, all_dz, ALL, all_ds, ALL, all_z, ALL, all_s, ALL, 1, &step_z, &step_s);
    printf("steps of the list %.17g and %.17g\n", step_z, step_s);

    /* a product with w is refused on a fresh cone, and made once something has set its scaling */
    double all_w[ALL], all_lambda[ALL], all_u[ALL], all_v[ALL], all_eta[2], all_d[2], all_y[ALL] = {0};
    uint8_t marks[2] = {AKM_FRESH, AKM_FRESH};
    akm_fresh_state(all_w, ALL, all_lambda, ALL, all_u, ALL, all_v, ALL, all_eta, 2, all_d, 2);
    for (int k = 0; k < 2; k++) {
        printf("marks %d, %d: ", marks[0], marks[1]);
        uint8_t no = akm_list_mul_w(list, 2, 1, all_y, ALL, all_z, ALL, 1, 0, all_w, ALL, all_eta, 2, marks, 2);
        if (no != AKM_DONE) printf("refused with %d\n", no);
        else print("W*z", all_y, ALL);
        akm_list_set_identity_scaling(list, 2, 1, all_w, ALL, all_u, ALL, all_v, ALL, all_eta, 2, all_d, 2, marks, 2);
    }

    /* the whole list's scaling stops at the first cone that has none, as cone 1 for all_dz, which lies outside */
    size_t cone;
    for (int k = 0; k < 2; k++) {
        if (akm_whole_update_scaling(list, 2, all_s, ALL, k ? all_z : all_dz, ALL, all_w, ALL, all_lambda, ALL,
                                     all_u, ALL, all_v, ALL, all_eta, 2, all_d, 2, marks, 2, &truth, &cone) != AKM_DONE) return 1;
        printf("marks %d, %d: ", marks[0], marks[1]);
        if (truth) print("lambda of the list", all_lambda, ALL);
        else printf("no scaling of cone %zu\n", cone);
    }

    printf("cone 2 is refused with %d\n", akm_list_standing(list, 2, 2, all_z, ALL, &standing));
    return 0;
}
