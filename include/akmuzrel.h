/* The cone kernels for C: every bare call of the second-order cone (akm_soc_..) and of the nonnegative
   cone (akm_nn_..), every call on a list of cones (akm_list_..), a fresh state, and three operations on
   numbers.
   `tools/library LIB.a` proves what stands here and writes the library to link.

   A vector is a pointer and its length. A call takes any lengths and any numbers, NaN included. Its
   answer is the number of the first refusal that applies, AKM_DONE for none; a refused call has written
   nothing (the square block has its number in its answer, a struct). A truth is 1 for true and 0 for
   false, a standing one of enum akm_standing. The caller owes this: no pointer is
   null, also where its length is 0; each is aligned and has its length behind it; and what is not const
   overlaps nothing else that the call is lent.

   In a bare call the dimension n is the length of the first vector, but of w in the calls of a block and
   of identity scaling; every other vector is as long, but for the block itself. */
#ifndef AKMUZREL_H
#define AKMUZREL_H

#include <stddef.h>
#include <stdint.h>

#ifdef __cplusplus
extern "C" {
#endif

/* Refusals. Rank of a bare call: 1, 7, 5, 6. Of a call on a list: more than 256 cones (2); then record by
   record 1, 3, the total (2); then 4, 7, 5, 6, 8. */
enum akm_refusal {
    AKM_DONE = 0,
    AKM_BAD_DIMENSION = 1, /* second-order: below 2 or above 4,096; nonnegative: above 4,096; no such kind */
    AKM_BAD_SIZE = 2,      /* over 256 cones, or over 65,536 entries in all */
    AKM_BAD_START = 3,     /* a cone does not start where the one before it ends, the first at 0 */
    AKM_NO_CONE = 4,       /* the cone named is not in the list */
    AKM_BAD_LENGTH = 5,    /* a vector has the wrong length */
    AKM_BAD_LIMIT = 6,     /* a step's limit is NaN or below zero */
    AKM_NOT_DENSE = 7,     /* the square block is asked of a cone that is nonnegative or of over 4 entries */
    AKM_BAD_MARK = 8       /* of a list: the cone's mark says that what the call reads is not set */
};

/* Where a point stands towards its cone. */
enum akm_standing {
    AKM_INSIDE = 0,
    AKM_EDGE = 1,
    AKM_OUTSIDE = 2,
    AKM_MIRRORED = 3, /* second-order only: inside the cone's mirror image */
    AKM_NOT_NUMBER = 4
};

/* ---- numbers */

double akm_sqrt(double x);                /* the double nearest the root */
double akm_least(double a, double b);     /* a NaN counts as missing; of two opposite zeros the first */
double akm_greatest(double a, double b);

/* ---- a fresh state

   What is stored from call to call is w, lambda, u, v, eta and d, for one cone or for a list. Before the
   first call w, lambda, u, v and eta are +0 throughout and d is 1 throughout; this call makes it so. Each
   vector is filled by itself, whatever its length, so nothing is refused; of one cone eta and d are vectors
   of one number. (u and v must not be left as they come: a scaling adds 0 times what they held, and 0 times
   a NaN or an infinity is a NaN.) The marks of a list are apart: see there. */
void akm_fresh_state(double *w, size_t w_len, double *lambda, size_t lambda_len, double *u, size_t u_len, double *v, size_t v_len, double *eta, size_t eta_len, double *d, size_t d_len);

/* ---- second-order. A cone stores w, lambda, u, v, eta, d; one of up to 4 entries, which is dense, keeps u, v
   and d as they are. The block of such a cone can be had as a matrix: */

struct akm_square {
    uint8_t no; /* the refusal's number */
    double rows[4][4];
};

/* soc: written by tools/surface */

/* ---- second-order: margins and unit */

/* alpha = z0 - |z1|, beta = the greatest of 0 and alpha */
uint8_t akm_soc_margins(const double *z, size_t z_len, double *alpha, double *beta);
/* z += alpha*(1, 0, ..) */
uint8_t akm_soc_scaled_unit_shift(double *z, size_t z_len, double alpha);
/* z = s = (1, 0, ..) */
uint8_t akm_soc_unit_initialization(double *z, size_t z_len, double *s, size_t s_len);

/* ---- second-order: scaling */

/* w = (1, 0, ..), eta = 1; above 4 entries also d = 1/2, u = (1/sqrt 2, 0, ..) and v = 0. lambda stays */
uint8_t akm_soc_set_identity_scaling(double *w, size_t w_len, double *u, size_t u_len, double *v, size_t v_len, double *eta, double *d);
/* truth = true, or false where s, z or the new w has no root scale: then nothing else is written. A
   mirrored point has one, a fault that is kept: s = z = (-2, 0) gives true and puts a NaN into lambda.
   The standing tells such a point */
uint8_t akm_soc_update_scaling(const double *s, size_t s_len, const double *z, size_t z_len, double *w, size_t w_len, double *lambda, size_t lambda_len, double *u, size_t u_len, double *v, size_t v_len, double *eta, double *d, uint8_t *truth);

/* ---- second-order: the block Hs */

/* hs has n numbers for n above 4, else n(n+1)/2: the upper triangle by columns */
uint8_t akm_soc_get_hs(double *hs, size_t hs_len, const double *w, size_t w_len, const double *eta, const double *d);
/* the block of a cone of up to 4 entries as a matrix, +0 beyond the dimension and where it is refused:
   the answer is the whole struct, which is written in either case */
void akm_soc_square_hs(struct akm_square *square, const double *w, size_t w_len, const double *eta);
/* y = Hs*x */
uint8_t akm_soc_mul_hs(double *y, size_t y_len, const double *x, size_t x_len, const double *w, size_t w_len, const double *eta);

/* ---- second-order: directions */

/* ds = lambda's Jordan product with itself */
uint8_t akm_soc_affine_ds(double *ds, size_t ds_len, const double *lambda, size_t lambda_len);
/* shift = Ds*Dz - sigma_mu*(1, 0, ..), with Dz = W*step_z and Ds = W's inverse times step_s, which are
   left in step_z and step_s */
uint8_t akm_soc_combined_ds_shift(double *shift, size_t shift_len, double *step_z, size_t step_z_len, double *step_s, size_t step_s_len, double sigma_mu, const double *w, size_t w_len, const double *eta);
/* out = the constant part of Ds as a function of Dz */
uint8_t akm_soc_ds_from_dz_offset(double *out, size_t out_len, const double *ds, size_t ds_len, const double *z, size_t z_len, const double *w, size_t w_len, const double *lambda, size_t lambda_len, const double *eta);

/* ---- second-order: steps */

/* step_z = z along dz, step_s = s along ds */
uint8_t akm_soc_step_length(const double *dz, size_t dz_len, const double *ds, size_t ds_len, const double *z, size_t z_len, const double *s, size_t s_len, double limit, double *step_z, double *step_s);
/* how far x may go along y, at most limit; it lies in [0, limit]. Along a y of residual 0 it heeds the
   one root: (1, 0) along (-1, 1) with limit 1 gives a half. A fault that is kept: from an x of residual
   0 along a y of residual above 0 it is the limit, lowered where the first entry would pass 0, also
   where y points down: (1, 1) along (-1, 0) with limit 1 gives 1, though no step stays inside */
uint8_t akm_soc_step(const double *x, size_t x_len, const double *y, size_t y_len, double limit, double *step);

/* ---- second-order: products */

/* y = alpha*W*x + beta*y */
uint8_t akm_soc_mul_w(double *y, size_t y_len, const double *x, size_t x_len, double alpha, double beta, const double *w, size_t w_len, const double *eta);
/* y = alpha*x/W + beta*y, with W's inverse */
uint8_t akm_soc_mul_winv(double *y, size_t y_len, const double *x, size_t x_len, double alpha, double beta, const double *w, size_t w_len, const double *eta);
/* x = the Jordan product of y and z */
uint8_t akm_soc_circ_op(double *x, size_t x_len, const double *y, size_t y_len, const double *z, size_t z_len);
/* the x whose Jordan product with y is z */
uint8_t akm_soc_inv_circ_op(double *x, size_t x_len, const double *y, size_t y_len, const double *z, size_t z_len);
/* the x whose Jordan product with lambda is z */
uint8_t akm_soc_lambda_inv_circ_op(double *x, size_t x_len, const double *z, size_t z_len, const double *lambda, size_t lambda_len);

/* ---- second-order: standing and residuals */

/* standing = where z stands, one of five */
uint8_t akm_soc_standing(const double *z, size_t z_len, uint8_t *standing);
/* value = (z0 - |z1|) * (z0 + |z1|), z1 the entries from 1 on */
uint8_t akm_soc_residual(const double *z, size_t z_len, double *value);
/* the residual of z + alpha*dz */
uint8_t akm_soc_residual_shifted(const double *z, size_t z_len, const double *dz, size_t dz_len, double alpha, double *value);
/* the residual's root where it is above 0, else 0 */
uint8_t akm_sqrt_soc_residual(const double *z, size_t z_len, double *value);
/* end */

/* ---- nonnegative: the same, entry by entry. A cone stores w and lambda. */

/* nn: written by tools/surface */

/* ---- nonnegative: margins and unit */

/* alpha = the least entry, from infinity; beta = the sum of the entries above 0 */
uint8_t akm_nn_margins(const double *z, size_t z_len, double *alpha, double *beta);
/* z += alpha*(1, 1, ..) */
uint8_t akm_nn_scaled_unit_shift(double *z, size_t z_len, double alpha);
/* z = s = (1, 1, ..) */
uint8_t akm_nn_unit_initialization(double *z, size_t z_len, double *s, size_t s_len);

/* ---- nonnegative: scaling */

/* w = (1, 1, ..) */
uint8_t akm_nn_set_identity_scaling(double *w, size_t w_len);
/* lambda = sqrt(s*z), w = sqrt(s/z); truth = true */
uint8_t akm_nn_update_scaling(const double *s, size_t s_len, const double *z, size_t z_len, double *w, size_t w_len, double *lambda, size_t lambda_len, uint8_t *truth);

/* ---- nonnegative: the block Hs */

/* hs = w*w */
uint8_t akm_nn_get_hs(double *hs, size_t hs_len, const double *w, size_t w_len);
/* y = w*(w*x) */
uint8_t akm_nn_mul_hs(double *y, size_t y_len, const double *x, size_t x_len, const double *w, size_t w_len);

/* ---- nonnegative: directions */

/* ds = lambda*lambda */
uint8_t akm_nn_affine_ds(double *ds, size_t ds_len, const double *lambda, size_t lambda_len);
/* shift = Ds*Dz - sigma_mu*(1, 1, ..), with Dz = w*step_z and Ds = step_s/w, which are left in step_z
   and step_s */
uint8_t akm_nn_combined_ds_shift(double *shift, size_t shift_len, double *step_z, size_t step_z_len, double *step_s, size_t step_s_len, double sigma_mu, const double *w, size_t w_len);
/* out = ds/z */
uint8_t akm_nn_ds_from_dz_offset(double *out, size_t out_len, const double *ds, size_t ds_len, const double *z, size_t z_len);

/* ---- nonnegative: steps */

/* step_z = z along dz, step_s = s along ds */
uint8_t akm_nn_step_length(const double *dz, size_t dz_len, const double *ds, size_t ds_len, const double *z, size_t z_len, const double *s, size_t s_len, double limit, double *step_z, double *step_s);
/* the least of limit and each -x/y with y below 0. It can be negative, where an entry of x is: (-1)
   along (-1) with limit 1 gives -1. So can a list's step */
uint8_t akm_nn_step(const double *x, size_t x_len, const double *y, size_t y_len, double limit, double *step);

/* ---- nonnegative: products */

/* y = alpha*(x*w) + beta*y */
uint8_t akm_nn_mul_w(double *y, size_t y_len, const double *x, size_t x_len, double alpha, double beta, const double *w, size_t w_len);
/* y = alpha*(x/w) + beta*y */
uint8_t akm_nn_mul_winv(double *y, size_t y_len, const double *x, size_t x_len, double alpha, double beta, const double *w, size_t w_len);
/* x = y*z */
uint8_t akm_nn_circ_op(double *x, size_t x_len, const double *y, size_t y_len, const double *z, size_t z_len);
/* x = z/y */
uint8_t akm_nn_inv_circ_op(double *x, size_t x_len, const double *y, size_t y_len, const double *z, size_t z_len);
/* x = z/lambda */
uint8_t akm_nn_lambda_inv_circ_op(double *x, size_t x_len, const double *z, size_t z_len, const double *lambda, size_t lambda_len);

/* ---- nonnegative: standing and residuals */

/* standing = where z stands, one of five, but never mirrored */
uint8_t akm_nn_standing(const double *z, size_t z_len, uint8_t *standing);
/* end */

/* ---- a list of cones

   A row of records, the first of which starts at 0, each next where the one before ends. A call names one
   cone of it, by its index k, and reads and writes nothing but that cone's own range of each buffer. z, s,
   w, lambda, u, v and the like are as long as all entries together, eta and d have one number for each
   cone, and hs holds each cone's block behind the other: n numbers for a nonnegative cone or one of over 4
   entries, else n(n+1)/2. A nonnegative cone uses no u, v, eta and d. What a call computes is said above.

   Each cone of a list also has a mark, a byte of marks, which are as many as eta and d: by what the cone's
   scaling was last set. akm_list_set_identity_scaling makes it AKM_IDENTITY, and a scaling that answers true
   AKM_SCALED. Nothing else writes marks, nor does a refused call or a false. What reads w, eta or d is
   refused with 8 on a fresh cone, and what reads lambda, which identity scaling never sets, unless the mark
   is AKM_SCALED. The marks of a new list are AKM_FRESH throughout, which the caller writes; any byte that is
   none of the three counts as AKM_FRESH. A bare call has no mark. */

enum akm_mark {
    AKM_FRESH = 0,
    AKM_IDENTITY = 1,
    AKM_SCALED = 2
};

enum akm_kind {
    AKM_NONNEGATIVE = 0,
    AKM_SECOND_ORDER = 1
};

struct akm_cone {
    size_t start;
    size_t kind; /* one of enum akm_kind */
    size_t dimension;
};

/* list: written by tools/surface */
uint8_t akm_list_margins(const struct akm_cone *list, size_t list_len, size_t k, const double *z, size_t z_len, double *alpha, double *beta);
uint8_t akm_list_scaled_unit_shift(const struct akm_cone *list, size_t list_len, size_t k, double *z, size_t z_len, double alpha);
uint8_t akm_list_unit_initialization(const struct akm_cone *list, size_t list_len, size_t k, double *z, size_t z_len, double *s, size_t s_len);
/* sets the mark to Identity */
uint8_t akm_list_set_identity_scaling(const struct akm_cone *list, size_t list_len, size_t k, double *w, size_t w_len, double *u, size_t u_len, double *v, size_t v_len, double *eta, size_t eta_len, double *d, size_t d_len, uint8_t *marks, size_t marks_len);
/* a true sets the mark to Scaled, a false keeps it */
uint8_t akm_list_update_scaling(const struct akm_cone *list, size_t list_len, size_t k, const double *s, size_t s_len, const double *z, size_t z_len, double *w, size_t w_len, double *lambda, size_t lambda_len, double *u, size_t u_len, double *v, size_t v_len, double *eta, size_t eta_len, double *d, size_t d_len, uint8_t *marks, size_t marks_len, uint8_t *truth);
/* refused with 8 unless the mark is Identity or Scaled */
uint8_t akm_list_get_hs(const struct akm_cone *list, size_t list_len, size_t k, double *hs, size_t hs_len, const double *w, size_t w_len, const double *eta, size_t eta_len, const double *d, size_t d_len, const uint8_t *marks, size_t marks_len);
/* refused with 8 unless the mark is Identity or Scaled */
void akm_list_square_hs(struct akm_square *square, const struct akm_cone *list, size_t list_len, size_t k, const double *w, size_t w_len, const double *eta, size_t eta_len, const uint8_t *marks, size_t marks_len);
/* refused with 8 unless the mark is Identity or Scaled */
uint8_t akm_list_mul_hs(const struct akm_cone *list, size_t list_len, size_t k, double *y, size_t y_len, const double *x, size_t x_len, const double *w, size_t w_len, const double *eta, size_t eta_len, const uint8_t *marks, size_t marks_len);
/* refused with 8 unless the mark is Scaled */
uint8_t akm_list_affine_ds(const struct akm_cone *list, size_t list_len, size_t k, double *ds, size_t ds_len, const double *lambda, size_t lambda_len, const uint8_t *marks, size_t marks_len);
/* refused with 8 unless the mark is Identity or Scaled */
uint8_t akm_list_combined_ds_shift(const struct akm_cone *list, size_t list_len, size_t k, double *shift, size_t shift_len, double *step_z, size_t step_z_len, double *step_s, size_t step_s_len, double sigma_mu, const double *w, size_t w_len, const double *eta, size_t eta_len, const uint8_t *marks, size_t marks_len);
/* of a second-order cone refused with 8 unless the mark is Scaled; of a nonnegative one open on any mark */
uint8_t akm_list_ds_from_dz_offset(const struct akm_cone *list, size_t list_len, size_t k, double *out, size_t out_len, const double *ds, size_t ds_len, const double *z, size_t z_len, const double *w, size_t w_len, const double *lambda, size_t lambda_len, const double *eta, size_t eta_len, const uint8_t *marks, size_t marks_len);
uint8_t akm_list_step_length(const struct akm_cone *list, size_t list_len, size_t k, const double *dz, size_t dz_len, const double *ds, size_t ds_len, const double *z, size_t z_len, const double *s, size_t s_len, double limit, double *step_z, double *step_s);
/* refused with 8 unless the mark is Identity or Scaled */
uint8_t akm_list_mul_w(const struct akm_cone *list, size_t list_len, size_t k, double *y, size_t y_len, const double *x, size_t x_len, double alpha, double beta, const double *w, size_t w_len, const double *eta, size_t eta_len, const uint8_t *marks, size_t marks_len);
/* refused with 8 unless the mark is Identity or Scaled */
uint8_t akm_list_mul_winv(const struct akm_cone *list, size_t list_len, size_t k, double *y, size_t y_len, const double *x, size_t x_len, double alpha, double beta, const double *w, size_t w_len, const double *eta, size_t eta_len, const uint8_t *marks, size_t marks_len);
uint8_t akm_list_circ_op(const struct akm_cone *list, size_t list_len, size_t k, double *x, size_t x_len, const double *y, size_t y_len, const double *z, size_t z_len);
uint8_t akm_list_inv_circ_op(const struct akm_cone *list, size_t list_len, size_t k, double *x, size_t x_len, const double *y, size_t y_len, const double *z, size_t z_len);
/* refused with 8 unless the mark is Scaled */
uint8_t akm_list_lambda_inv_circ_op(const struct akm_cone *list, size_t list_len, size_t k, double *x, size_t x_len, const double *z, size_t z_len, const double *lambda, size_t lambda_len, const uint8_t *marks, size_t marks_len);
uint8_t akm_list_standing(const struct akm_cone *list, size_t list_len, size_t k, const double *z, size_t z_len, uint8_t *standing);
/* the whole list's scaling: the calls on cone 0, 1, .. made one by one, up to and including the first
   that answers false. truth = true for all, which leaves cone as it was, and is so of no cones; or
   false, and cone = that cone's index: it and the cones behind it keep all their numbers and marks, the
   cones before it are Scaled */
uint8_t akm_whole_update_scaling(const struct akm_cone *list, size_t list_len, const double *s, size_t s_len, const double *z, size_t z_len, double *w, size_t w_len, double *lambda, size_t lambda_len, double *u, size_t u_len, double *v, size_t v_len, double *eta, size_t eta_len, double *d, size_t d_len, uint8_t *marks, size_t marks_len, uint8_t *truth, size_t *cone);
/* the whole list's step: each cone's at the caller's limit, and of each side the least; the limit twice
   for no cones */
uint8_t akm_whole_step_length(const struct akm_cone *list, size_t list_len, const double *dz, size_t dz_len, const double *ds, size_t ds_len, const double *z, size_t z_len, const double *s, size_t s_len, double limit, double *step_z, double *step_s);
/* end */

#ifdef __cplusplus
}
#endif

#endif
