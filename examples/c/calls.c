/* Every call once where it is accepted and once where it is refused, on one small network. docs/API.md quotes what this prints. */
#include <inttypes.h>
#include <stdio.h>

#include "fuistelo.h"

/* Motor, brake coil, drive, cabinet, air. The values are rates per minute; the air's row is empty. */
enum { N = 5, M = 14 };
static const size_t row_ptr[N + 1] = {0, 4, 7, 10, 14, 14};
static const uint32_t col_idx[M] = {0, 1, 3, 4, 0, 1, 4, 2, 3, 4, 0, 2, 3, 4};
static const double fan[M] = {0.05, -0.01, -0.01, -0.03, -0.25, 0.3, -0.05, 0.2, -0.15, -0.05, -0.02, -0.08, 0.15, -0.05};
static const double still[M] = {0.03, -0.01, -0.01, -0.01, -0.25, 0.3, -0.05, 0.2, -0.15, -0.05, -0.02, -0.08, 0.15, -0.05};
static const double mean[M] = {0.04, -0.01, -0.01, -0.02, -0.25, 0.3, -0.05, 0.2, -0.15, -0.05, -0.02, -0.08, 0.15, -0.05};
static const double weights1[N] = {1, 0.9, 0.8, 0.7, 1};
static const double weights2[N] = {0.9, 0.8, 0.7, 0.6, 1};
static const double degrees[N] = {85, 110, 70, 45, 20};
static const double breakpoints[3] = {0, 10, 30};

static double dst[N];
static double work[FUISTELO_OMEGA6_WORK(N)];

/* What a parameter list has for a Laplacian, for the pattern of a trajectory, and for a slice. */
#define SLICE(values, length) (values), (length)
#define LAPLACIAN(vals) N, SLICE(row_ptr, N + 1), SLICE(col_idx, M), SLICE(vals, M)
#define ONE_SEGMENT(law) N, SLICE(row_ptr, N + 1), SLICE(col_idx, M), 1, SLICE(breakpoints, 2), SLICE(fan, M), SLICE(still, M), SLICE(law, 1)
#define DST SLICE(dst, N)
#define WORK(length) SLICE(work, length)

static void answer(const char *call, fuistelo_answer a)
{
    printf("%s: number %" PRIu64, call, a.number);
    if (a.counts == 1) {
        printf(", count %" PRIu64, a.count);
    }
    if (a.reals >= 1) {
        printf(", first %g", a.first);
    }
    if (a.reals == 2) {
        printf(", second %g", a.second);
    }
    printf("\n");
}

/* The same, and what was written. */
static void written(const char *call, fuistelo_answer a)
{
    answer(call, a);
    printf("  dst:");
    for (size_t i = 0; i < N; i++) {
        printf(" %.9f", dst[i]);
    }
    printf("\n");
}

static void networks(void)
{
    printf("sqrt(2): %.17g\n", fuistelo_sqrt(2));
    answer("from_csr_parts", fuistelo_from_csr_parts(LAPLACIAN(fan)));
    answer("from_csr_parts, 13 values", fuistelo_from_csr_parts(N, SLICE(row_ptr, N + 1), SLICE(col_idx, M), SLICE(fan, M - 1)));
    answer("check_pattern", fuistelo_check_pattern(N, SLICE(row_ptr, N + 1), SLICE(col_idx, M)));
    answer("check_pattern, n = 4", fuistelo_check_pattern(N - 1, SLICE(row_ptr, N), SLICE(col_idx, M)));
    answer("gershgorin_bound_csr", fuistelo_gershgorin_bound_csr(LAPLACIAN(fan)));
    answer("gershgorin_bound_csr, n = 5000", fuistelo_gershgorin_bound_csr(5000, SLICE(row_ptr, N + 1), SLICE(col_idx, M), SLICE(fan, M)));
    written("apply_into_slice", fuistelo_apply_into_slice(LAPLACIAN(fan), SLICE(degrees, N), DST));
    written("apply_into_slice, src of 4", fuistelo_apply_into_slice(LAPLACIAN(fan), SLICE(degrees, N - 1), DST));
    written("copy_from", fuistelo_copy_from(DST, SLICE(degrees, N)));
    written("copy_from, src of 3", fuistelo_copy_from(DST, SLICE(weights1, 3)));
    written("axpy_into_slice, alpha = 0.5", fuistelo_axpy_into_slice(DST, 0.5, SLICE(weights1, N)));
    written("axpy_into_slice, src of 3", fuistelo_axpy_into_slice(DST, 0.5, SLICE(weights1, 3)));
}

static void steps(void)
{
    const size_t need = FUISTELO_OMEGA4_WORK(N);
    written(
        "apply_exp_omega4_kernel",
        fuistelo_apply_exp_omega4_kernel(LAPLACIAN(fan), LAPLACIAN(still), 1, 0.6, true, SLICE(degrees, N), DST, WORK(need)));
    answer(
        "apply_exp_omega4_kernel, tau = 3",
        fuistelo_apply_exp_omega4_kernel(LAPLACIAN(fan), LAPLACIAN(still), 3, 0.6, true, SLICE(degrees, N), DST, WORK(need)));
    written(
        "apply_exp_omega4_adj_kernel",
        fuistelo_apply_exp_omega4_adj_kernel(LAPLACIAN(fan), LAPLACIAN(still), 1, 0.6, true, SLICE(degrees, N), DST, WORK(need)));
    answer(
        "apply_exp_omega4_adj_kernel, work of 24",
        fuistelo_apply_exp_omega4_adj_kernel(LAPLACIAN(fan), LAPLACIAN(still), 1, 0.6, true, SLICE(degrees, N), DST, WORK(need - 1)));
    written(
        "apply_exp_omega6_kernel",
        fuistelo_apply_exp_omega6_kernel(
            LAPLACIAN(fan), LAPLACIAN(mean), LAPLACIAN(still), 1, 0.6, true, SLICE(degrees, N), DST, WORK(FUISTELO_OMEGA6_WORK(N))));
    answer(
        "apply_exp_omega6_kernel, rho_bar_max = 0",
        fuistelo_apply_exp_omega6_kernel(
            LAPLACIAN(fan), LAPLACIAN(mean), LAPLACIAN(still), 1, 0, true, SLICE(degrees, N), DST, WORK(FUISTELO_OMEGA6_WORK(N))));
}

static void weighted_steps(void)
{
    const size_t need = FUISTELO_OMEGA4_LA_WORK(N);
    const double zero[N] = {0.9, 0, 0.7, 0.6, 1};
    written(
        "apply_exp_omega4_la_kernel",
        fuistelo_apply_exp_omega4_la_kernel(
            LAPLACIAN(fan), LAPLACIAN(still), 1, 0.6, 1, true, SLICE(weights1, N), SLICE(weights2, N), SLICE(degrees, N), DST, WORK(need)));
    answer(
        "apply_exp_omega4_la_kernel, a weight of 0",
        fuistelo_apply_exp_omega4_la_kernel(
            LAPLACIAN(fan), LAPLACIAN(still), 1, 0.6, 1, true, SLICE(weights1, N), SLICE(zero, N), SLICE(degrees, N), DST, WORK(need)));
    written(
        "apply_exp_omega4_la_adj_kernel",
        fuistelo_apply_exp_omega4_la_adj_kernel(
            LAPLACIAN(fan), LAPLACIAN(still), 1, 0.6, 1, true, SLICE(weights1, N), SLICE(weights2, N), SLICE(degrees, N), DST, WORK(need)));
    answer(
        "apply_exp_omega4_la_adj_kernel, a_sup_max = 2",
        fuistelo_apply_exp_omega4_la_adj_kernel(
            LAPLACIAN(fan), LAPLACIAN(still), 1, 0.6, 2, true, SLICE(weights1, N), SLICE(weights2, N), SLICE(degrees, N), DST, WORK(need)));
}

static void runs(void)
{
    const size_t need = FUISTELO_RUN_WORK(N, M);
    const size_t weighted = FUISTELO_VARCOEF_RUN_WORK(N, M);
    const uint8_t straight[1] = {2};
    const uint8_t unknown[1] = {3};
    answer("segment_index, t = 10", fuistelo_segment_index(2, SLICE(breakpoints, 3), 10));
    answer("segment_index, t = 31", fuistelo_segment_index(2, SLICE(breakpoints, 3), 31));
    written(
        "evolve_with_traj_into",
        fuistelo_evolve_with_traj_into(ONE_SEGMENT(straight), 10, 0.6, true, SLICE(degrees, N), DST, WORK(need)));
    answer(
        "evolve_with_traj_into, law 3",
        fuistelo_evolve_with_traj_into(ONE_SEGMENT(unknown), 10, 0.6, true, SLICE(degrees, N), DST, WORK(need)));
    written(
        "evolve_state_adjoint_into",
        fuistelo_evolve_state_adjoint_into(ONE_SEGMENT(straight), 1, 10, 0.6, true, SLICE(degrees, N), DST, WORK(need)));
    answer(
        "evolve_state_adjoint_into, tau = -1",
        fuistelo_evolve_state_adjoint_into(ONE_SEGMENT(straight), -1, 10, 0.6, true, SLICE(degrees, N), DST, WORK(need)));
    written(
        "varcoef_evolve_state_adjoint_into",
        fuistelo_varcoef_evolve_state_adjoint_into(
            ONE_SEGMENT(straight), 1, 10, 0.6, 1, true, SLICE(weights1, N), SLICE(weights2, N), SLICE(degrees, N), DST, WORK(weighted)));
    answer(
        "varcoef_evolve_state_adjoint_into, 70000 steps",
        fuistelo_varcoef_evolve_state_adjoint_into(
            ONE_SEGMENT(straight), 1, 70000, 0.6, 1, true, SLICE(weights1, N), SLICE(weights2, N), SLICE(degrees, N), DST, WORK(weighted)));
}

int main(void)
{
    networks();
    steps();
    weighted_steps();
    runs();
    return 0;
}
