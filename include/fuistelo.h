/* Fuistelo: proved numerical kernels for networks of heat links. Link target/staticlib/libfuistelo.a, which `include/archive` writes.
 *
 * A slice is a pointer and then its length in elements. For every call:
 *   - each pointer is non-null and aligned to its element, also where the length is 0, and points to that many initialized elements;
 *   - a slice that is written (its pointer is not const) overlaps no other slice of the call; slices that are only read may overlap;
 *   - rounding is to nearest, and subnormal numbers are kept: the state in which a C program starts.
 * Nothing else is asked: any numbers and any lengths are answered, and NaN and infinities are legal in signals. Which NaN is written or told is
 * not fixed. No call allocates, keeps anything between calls or stops half way, and calls from several threads need no lock while no slice that
 * one writes is used by another.
 *
 * A network of n nodes has a Laplacian in compressed sparse rows: row_ptr (n + 1 row starts), and col_idx and vals (a column and a value for
 * each entry). Row i has the entries from row_ptr[i] up to row_ptr[i + 1]; entries before row_ptr[0] belong to no row.
 *
 * The contracts stand in the crates whose names begin with fuistelo_; docs/API.md has an example of each call. tests/declarations compares this
 * file with them. */
#ifndef FUISTELO_H
#define FUISTELO_H

#include <stdbool.h>
#include <stddef.h>
#include <stdint.h>

#ifdef __cplusplus
extern "C" {
#endif

/* What a call answers. A refusal leaves every slice as it was, but where a run says otherwise. Rows are met in the order that the call names,
 * and the first fault is the answer. */
typedef struct fuistelo_answer {
    uint64_t number; /* 0: accepted; else the row of the refusal */
    uint64_t counts; /* how many whole counts the answer carries, 0 or 1 */
    uint64_t count;  /* that count; 0 where there is none */
    uint64_t reals;  /* how many reals the answer carries, 0 to 2 */
    double first;    /* the first real; +0 where there is none */
    double second;   /* the second real; +0 where there is none */
} fuistelo_answer;

/* The rows, with what a refusal carries and when it is met. */
enum fuistelo_row {
    FUISTELO_ACCEPTED = 0,
    FUISTELO_ROW_START_COUNT = 1,   /* count of row starts: it is not n + 1 */
    FUISTELO_ROW_START_FALLS = 2,   /* row i: the first whose start exceeds the next */
    FUISTELO_ENTRY_COUNT = 3,       /* last row start: the columns or the values are not that many */
    FUISTELO_COLUMN = 4,            /* column: the first that is n or more */
    FUISTELO_VALUE = 5,             /* value: the first listed one that is not finite */
    FUISTELO_SIZE = 6,              /* n, where it is over 4,096; else the count of columns, where that is over 65,535 */
    FUISTELO_TAU = 7,               /* tau: it is not finite or below 0 */
    FUISTELO_RADIUS = 8,            /* tau, bound: the check is on, and bound * tau >= pi / 2 */
    FUISTELO_BOUND = 9,             /* bound: it is not finite, or 0 or less */
    FUISTELO_LENGTH = 10,           /* length: a slice or a sample has another n, or the work slice is too short */
    FUISTELO_WEIGHT = 11,           /* weight: the first that is not finite, or 0 or less */
    FUISTELO_NO_NODES = 12,         /* 0: a weighted step or run has n = 0 */
    FUISTELO_SEGMENT_COUNT = 13,    /* count of segments: it is 0 or over 65,535, or not 1 in an adjoint run */
    FUISTELO_POOL_COUNT = 14,       /* length: breakpoints, starts, ends or laws are not as many as the segments ask for */
    FUISTELO_BREAKPOINT = 15,       /* breakpoint: the first that is not finite, or not above the one before it */
    FUISTELO_STEP_COUNT = 16,       /* count of steps: it is over 65,535, or 0 in a forward run */
    FUISTELO_FIRST_BREAKPOINT = 17, /* first breakpoint: it is not 0; -0 passes */
    FUISTELO_LOOKUP_TIME = 18,      /* t: it lies outside the breakpoints, or is a NaN */
    FUISTELO_LAW = 19,              /* law: the first that is over 2 */
    FUISTELO_SAMPLED_VALUE = 20,    /* value: the first sampled one that is not finite, in a step of a run */
    FUISTELO_MALFORMED = 21         /* count of bytes of a malformed job: no call of this file answers so */
};

/* How many elements the work slice of a call needs: n nodes, m columns. */
#define FUISTELO_OMEGA4_WORK(n) (5 * (size_t)(n))
#define FUISTELO_OMEGA4_LA_WORK(n) (9 * (size_t)(n))
#define FUISTELO_OMEGA6_WORK(n) (22 * (size_t)(n))
#define FUISTELO_RUN_WORK(n, m) (7 * (size_t)(n) + 2 * (size_t)(m))
#define FUISTELO_VARCOEF_RUN_WORK(n, m) (11 * (size_t)(n) + 2 * (size_t)(m))

/* The square root of x, rounded to nearest as IEEE 754 has it. A NaN and a negative x give a NaN, -0 gives -0. */
double fuistelo_sqrt(double x);

/* ---- calls on one Laplacian */

/* Whether the parts make up a Laplacian. Writes nothing.
 * Lengths: row_ptr n + 1; col_idx and vals as many as row_ptr[n] says.
 * Answers: 6, 1, 2, 3, 4, 5. */
fuistelo_answer fuistelo_from_csr_parts(
    size_t n,
    const size_t *row_ptr, size_t row_ptr_len,
    const uint32_t *col_idx, size_t col_idx_len,
    const double *vals, size_t vals_len);

/* The same of row starts and columns alone. Writes nothing.
 * Answers: 6, 1, 2, 3, 4. */
fuistelo_answer fuistelo_check_pattern(
    size_t n,
    const size_t *row_ptr, size_t row_ptr_len,
    const uint32_t *col_idx, size_t col_idx_len);

/* The Gershgorin bound of a Laplacian: the largest sum of absolute values over the rows. Writes nothing. Accepted, the answer carries the bound:
 * reals is 1, and first is the bound.
 * Answers: 6, 1, 2, 3, 4, 5. */
fuistelo_answer fuistelo_gershgorin_bound_csr(
    size_t n,
    const size_t *row_ptr, size_t row_ptr_len,
    const uint32_t *col_idx, size_t col_idx_len,
    const double *vals, size_t vals_len);

/* dst = the product of the Laplacian with src: each row starts at +0 and adds value * src[column] in stored order.
 * Lengths: src and dst n.
 * Answers: 6, 1, 2, 3, 4, 5; 10 for src, dst. Accepted, it writes dst. */
fuistelo_answer fuistelo_apply_into_slice(
    size_t n,
    const size_t *row_ptr, size_t row_ptr_len,
    const uint32_t *col_idx, size_t col_idx_len,
    const double *vals, size_t vals_len,
    const double *src, size_t src_len,
    double *dst, size_t dst_len);

/* ---- calls on signals */

/* signal = src.
 * Answers: 10 with the length of src, where it is not that of signal. Accepted, it writes signal. */
fuistelo_answer fuistelo_copy_from(
    double *signal, size_t signal_len,
    const double *src, size_t src_len);

/* signal = signal + alpha * src, place by place.
 * Answers: 10 with the length of src, where it is not that of signal. Accepted, it writes signal. */
fuistelo_answer fuistelo_axpy_into_slice(
    double *signal, size_t signal_len,
    double alpha,
    const double *src, size_t src_len);

/* ---- steps */

/* dst = src after a forward Magnus step of order 4 and length tau, by the Taylor sum of degree 4. The two samples are Laplacians, each with its
 * own pattern. rho_bar_max bounds their spectra; where convergence_radius_check is true, row 8 is tested with it.
 * Lengths: src and dst n1, which n2 equals; work at least 5 * n1.
 * Answers: 6, 1, 2, 3, 4, 5 of sample 1, then of sample 2; 9; 7; 8; 10 for n2, src, dst, work.
 * Accepted, it writes dst, and the first 5 * n1 elements of work become +0. */
fuistelo_answer fuistelo_apply_exp_omega4_kernel(
    size_t n1,
    const size_t *row_ptr1, size_t row_ptr1_len,
    const uint32_t *col_idx1, size_t col_idx1_len,
    const double *vals1, size_t vals1_len,
    size_t n2,
    const size_t *row_ptr2, size_t row_ptr2_len,
    const uint32_t *col_idx2, size_t col_idx2_len,
    const double *vals2, size_t vals2_len,
    double tau,
    double rho_bar_max,
    bool convergence_radius_check,
    const double *src, size_t src_len,
    double *dst, size_t dst_len,
    double *work, size_t work_len);

/* The adjoint step: the same with the commutator's sign reversed. Lengths, answers and what is written are those of the forward step. */
fuistelo_answer fuistelo_apply_exp_omega4_adj_kernel(
    size_t n1,
    const size_t *row_ptr1, size_t row_ptr1_len,
    const uint32_t *col_idx1, size_t col_idx1_len,
    const double *vals1, size_t vals1_len,
    size_t n2,
    const size_t *row_ptr2, size_t row_ptr2_len,
    const uint32_t *col_idx2, size_t col_idx2_len,
    const double *vals2, size_t vals2_len,
    double tau,
    double rho_bar_max,
    bool convergence_radius_check,
    const double *src, size_t src_len,
    double *dst, size_t dst_len,
    double *work, size_t work_len);

/* dst = src after a forward step of order 4 with the node weights a1 and a2 of the two samples: a product is sqrt(a) * (L (sqrt(a) * v)).
 * a_sup_max bounds the roots of the weights; row 8 is tested with (rho_bar_max * a_sup_max) * a_sup_max, and carries it.
 * Lengths: src, dst, a1 and a2 n1, which n2 equals; work at least 9 * n1.
 * Answers: 6, 1, 2, 3, 4, 5 of sample 1, then of sample 2; 9 for rho_bar_max, a_sup_max; 12; 7; 8; 10 for n2, src, dst, a1 with a2 (the larger
 * of their lengths), work; 11 for a1, a2.
 * Accepted, it writes dst, and the first 9 * n1 elements of work become +0. */
fuistelo_answer fuistelo_apply_exp_omega4_la_kernel(
    size_t n1,
    const size_t *row_ptr1, size_t row_ptr1_len,
    const uint32_t *col_idx1, size_t col_idx1_len,
    const double *vals1, size_t vals1_len,
    size_t n2,
    const size_t *row_ptr2, size_t row_ptr2_len,
    const uint32_t *col_idx2, size_t col_idx2_len,
    const double *vals2, size_t vals2_len,
    double tau,
    double rho_bar_max,
    double a_sup_max,
    bool convergence_radius_check,
    const double *a1, size_t a1_len,
    const double *a2, size_t a2_len,
    const double *src, size_t src_len,
    double *dst, size_t dst_len,
    double *work, size_t work_len);

/* The adjoint weighted step: the same with the commutator's sign reversed. */
fuistelo_answer fuistelo_apply_exp_omega4_la_adj_kernel(
    size_t n1,
    const size_t *row_ptr1, size_t row_ptr1_len,
    const uint32_t *col_idx1, size_t col_idx1_len,
    const double *vals1, size_t vals1_len,
    size_t n2,
    const size_t *row_ptr2, size_t row_ptr2_len,
    const uint32_t *col_idx2, size_t col_idx2_len,
    const double *vals2, size_t vals2_len,
    double tau,
    double rho_bar_max,
    double a_sup_max,
    bool convergence_radius_check,
    const double *a1, size_t a1_len,
    const double *a2, size_t a2_len,
    const double *src, size_t src_len,
    double *dst, size_t dst_len,
    double *work, size_t work_len);

/* dst = src after a step of order 6 and length tau, by the Taylor sum of degree 6, from three samples.
 * Lengths: src and dst n1, which n2 and n3 equal; work at least 22 * n1.
 * Answers: 6, 1, 2, 3, 4, 5 of sample 1, then of sample 2, then of sample 3; 9; 7; 8; 10 for n2, n3, src, dst, work.
 * Accepted, it writes dst, and the first 22 * n1 elements of work become +0. */
fuistelo_answer fuistelo_apply_exp_omega6_kernel(
    size_t n1,
    const size_t *row_ptr1, size_t row_ptr1_len,
    const uint32_t *col_idx1, size_t col_idx1_len,
    const double *vals1, size_t vals1_len,
    size_t n2,
    const size_t *row_ptr2, size_t row_ptr2_len,
    const uint32_t *col_idx2, size_t col_idx2_len,
    const double *vals2, size_t vals2_len,
    size_t n3,
    const size_t *row_ptr3, size_t row_ptr3_len,
    const uint32_t *col_idx3, size_t col_idx3_len,
    const double *vals3, size_t vals3_len,
    double tau,
    double rho_bar_max,
    bool convergence_radius_check,
    const double *src, size_t src_len,
    double *dst, size_t dst_len,
    double *work, size_t work_len);

/* ---- calls along a trajectory
 *
 * A trajectory is n, row_ptr and col_idx, which all its samples share, m columns; the number of segments; breakpoints, one more than segments;
 * starts and ends, m values for each segment; and laws, one for each segment: 0, the segment's values are its start list; 1, its end list;
 * 2, straight from one to the other. The samples of a step are taken at its two Gauss nodes. */

/* The segment in which t lies. A breakpoint belongs to the segment that it starts, the last one to the last segment. Writes nothing. Accepted, the
 * answer carries the segment's index: counts is 1, and count is the index.
 * Lengths: breakpoints segments + 1.
 * Answers: 13, 14, 15, 18. */
fuistelo_answer fuistelo_segment_index(
    size_t segments,
    const double *breakpoints, size_t breakpoints_len,
    double t);

/* dst = src after so many forward steps of order 4 in each segment.
 * Lengths: row_ptr n + 1; breakpoints segments + 1; starts and ends segments * m; laws segments; src and dst n; work at least 7 * n + 2 * m.
 * Answers before the first step, with every slice as it was: 6, 1, 2, 3, 4, 13, 14, 15, 19, 5, 9, 16, 17; 10 for src, dst, work; 8 by segment.
 * Answers in a step: 20; then dst is as it was, and the first 7 * n + 2 * m elements of work become +0.
 * Accepted, it writes dst, and the first 7 * n + 2 * m elements of work become +0. */
fuistelo_answer fuistelo_evolve_with_traj_into(
    size_t n,
    const size_t *row_ptr, size_t row_ptr_len,
    const uint32_t *col_idx, size_t col_idx_len,
    size_t segments,
    const double *breakpoints, size_t breakpoints_len,
    const double *starts, size_t starts_len,
    const double *ends, size_t ends_len,
    const uint8_t *laws, size_t laws_len,
    size_t steps,
    double rho_bar_max,
    bool convergence_radius_check,
    const double *src, size_t src_len,
    double *dst, size_t dst_len,
    double *work, size_t work_len);

/* dst = src after so many adjoint steps of length tau in the one segment of the trajectory, the last first. Lengths are those of the forward run.
 * Answers before the first step, with every slice as it was: 6, 1, 2, 3, 4, 13, 14, 15, 17, 19, 5, 9, 16, 7, 8; 10 for src, dst, work.
 * Answers in a step: 20. What that and an accepted run leave is as in the forward run.
 * With steps = 0 it copies src to dst, leaves work as it was, and does not meet 16, 7, 8, nor 10 for work. */
fuistelo_answer fuistelo_evolve_state_adjoint_into(
    size_t n,
    const size_t *row_ptr, size_t row_ptr_len,
    const uint32_t *col_idx, size_t col_idx_len,
    size_t segments,
    const double *breakpoints, size_t breakpoints_len,
    const double *starts, size_t starts_len,
    const double *ends, size_t ends_len,
    const uint8_t *laws, size_t laws_len,
    double tau,
    size_t steps,
    double rho_bar_max,
    bool convergence_radius_check,
    const double *src, size_t src_len,
    double *dst, size_t dst_len,
    double *work, size_t work_len);

/* The same with node weights, which follow the segment's law from a_starts to a_ends. a_sup_max is that of the weighted step.
 * Lengths: a_starts and a_ends n; work at least 11 * n + 2 * m; the others as in the forward run.
 * Answers before the first step, with every slice as it was: 6, 1, 2, 3, 4, 13, 14, 15, 17, 19, 5, 9 for rho_bar_max, a_sup_max; 12, 16, 7, 8; 10 for
 * src, dst, a_starts with a_ends (the larger of their lengths), work.
 * Answers in a step: 20, then 11 for the sampled weights; then dst is as it was, and the first 11 * n + 2 * m elements of work become +0.
 * Accepted, it writes dst, and the first 11 * n + 2 * m elements of work become +0.
 * With steps = 0 it copies src to dst, leaves work as it was, and does not meet 16, 7, 8, nor 10 for a_starts, a_ends and work. */
fuistelo_answer fuistelo_varcoef_evolve_state_adjoint_into(
    size_t n,
    const size_t *row_ptr, size_t row_ptr_len,
    const uint32_t *col_idx, size_t col_idx_len,
    size_t segments,
    const double *breakpoints, size_t breakpoints_len,
    const double *starts, size_t starts_len,
    const double *ends, size_t ends_len,
    const uint8_t *laws, size_t laws_len,
    double tau,
    size_t steps,
    double rho_bar_max,
    double a_sup_max,
    bool convergence_radius_check,
    const double *a_starts, size_t a_starts_len,
    const double *a_ends, size_t a_ends_len,
    const double *src, size_t src_len,
    double *dst, size_t dst_len,
    double *work, size_t work_len);

#ifdef __cplusplus
}
#endif

#endif
