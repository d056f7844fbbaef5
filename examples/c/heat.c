/* Temperatures of a lift's drive: motor, brake coil, drive and cabinet cool towards the air of the shaft. The motor's fan runs down within ten
 * minutes; then only still air cools the motor. */
#include <inttypes.h>
#include <stdio.h>
#include <stdlib.h>

#include "fuistelo.h"

enum { MOTOR, BRAKE_COIL, DRIVE, CABINET, AIR, NODES };
enum { ENTRIES = 14, SEGMENTS = 2, STEPS = 12 };

static const char *const node_names[NODES] = {"motor", "brake coil", "drive", "cabinet", "air"};

/* The pattern: each node but the air is linked to some others. The air's row is empty, so its temperature stays. */
static const size_t row_ptr[NODES + 1] = {0, 4, 7, 10, 14, 14};
static const uint32_t col_idx[ENTRIES] = {
    MOTOR, BRAKE_COIL, CABINET, AIR,
    MOTOR, BRAKE_COIL, AIR,
    DRIVE, CABINET, AIR,
    MOTOR, DRIVE, CABINET, AIR,
};

/* Heat capacities in J/K, and the links in W/K. */
static const double capacity[NODES] = {20000, 900, 1800, 6000, 0};

static double link_between(size_t a, size_t b, double motor_to_air)
{
    if (a > b) {
        return link_between(b, a, motor_to_air);
    }
    if (a == MOTOR) {
        return b == BRAKE_COIL ? 4.0 : b == CABINET ? 0.2 : b == AIR ? motor_to_air : 0;
    }
    if (a == BRAKE_COIL) {
        return b == AIR ? 0.6 : 0;
    }
    if (a == DRIVE) {
        return b == CABINET ? 6.0 : b == AIR ? 0.3 : 0;
    }
    return b == AIR ? 5.0 : 0;
}

/* The Laplacian's values: in row i, -link / capacity beside the diagonal and their sum on it, so that dT/dt = -L T. */
static void values_for(double motor_to_air, double vals[ENTRIES])
{
    for (size_t i = 0; i < NODES; i++) {
        double sum = 0;
        for (size_t j = 0; j < NODES; j++) {
            sum += j == i ? 0 : link_between(i, j, motor_to_air);
        }
        for (size_t k = row_ptr[i]; k < row_ptr[i + 1]; k++) {
            size_t j = col_idx[k];
            vals[k] = (j == i ? sum : -link_between(i, j, motor_to_air)) / capacity[i];
        }
    }
}

static void print_answer(const char *call, fuistelo_answer answer)
{
    printf("%s: ", call);
    if (answer.number == FUISTELO_ACCEPTED) {
        printf("accepted");
    } else {
        printf("refused by row %" PRIu64, answer.number);
    }
    if (answer.counts == 1) {
        printf(", %" PRIu64, answer.count);
    }
    if (answer.reals >= 1) {
        printf(", %.6g", answer.first);
    }
    if (answer.reals == 2) {
        printf(", %.6g", answer.second);
    }
    printf("\n");
}

static void stop_if_refused(const char *call, fuistelo_answer answer)
{
    if (answer.number != FUISTELO_ACCEPTED) {
        print_answer(call, answer);
        exit(EXIT_FAILURE);
    }
}

/* The larger of the Gershgorin bounds of the two lists of values. */
static double bound_of(const double *first, const double *second)
{
    fuistelo_answer a = fuistelo_gershgorin_bound_csr(NODES, row_ptr, NODES + 1, col_idx, ENTRIES, first, ENTRIES);
    stop_if_refused("gershgorin_bound_csr", a);
    fuistelo_answer b = fuistelo_gershgorin_bound_csr(NODES, row_ptr, NODES + 1, col_idx, ENTRIES, second, ENTRIES);
    stop_if_refused("gershgorin_bound_csr", b);
    return a.first < b.first ? b.first : a.first;
}

int main(void)
{
    /* Segment 0 goes straight from the running fan to still air (law 2); in segment 1 the air is still (law 0). */
    static const double breakpoints[SEGMENTS + 1] = {0, 600, 1800};
    static const uint8_t laws[SEGMENTS] = {2, 0};
    double starts[SEGMENTS * ENTRIES];
    double ends[SEGMENTS * ENTRIES];
    values_for(12.0, &starts[0]);
    values_for(3.0, &ends[0]);
    values_for(3.0, &starts[ENTRIES]);
    values_for(3.0, &ends[ENTRIES]);
    double bound = bound_of(&starts[0], &ends[0]);
    printf("Gershgorin bound: %.6g per second\n", bound);

    double before[NODES] = {85, 110, 70, 45, 20};
    double after[NODES];
    double work[FUISTELO_RUN_WORK(NODES, ENTRIES)];
    stop_if_refused(
        "evolve_with_traj_into",
        fuistelo_evolve_with_traj_into(
            NODES, row_ptr, NODES + 1, col_idx, ENTRIES,
            SEGMENTS, breakpoints, SEGMENTS + 1, starts, SEGMENTS * ENTRIES, ends, SEGMENTS * ENTRIES, laws, SEGMENTS,
            STEPS, bound, true,
            before, NODES, after, NODES, work, FUISTELO_RUN_WORK(NODES, ENTRIES)));
    printf("degrees C        at 0 s   at 1800 s\n");
    for (size_t i = 0; i < NODES; i++) {
        printf("%-12s %10.4f  %10.4f\n", node_names[i], before[i], after[i]);
    }

    print_answer("segment at 600 s", fuistelo_segment_index(SEGMENTS, breakpoints, SEGMENTS + 1, 600));
    /* With one step in each segment bound * tau is over pi / 2: refused, and `after` is as it was. */
    print_answer(
        "one step in each segment",
        fuistelo_evolve_with_traj_into(
            NODES, row_ptr, NODES + 1, col_idx, ENTRIES,
            SEGMENTS, breakpoints, SEGMENTS + 1, starts, SEGMENTS * ENTRIES, ends, SEGMENTS * ENTRIES, laws, SEGMENTS,
            1, bound, true,
            before, NODES, after, NODES, work, FUISTELO_RUN_WORK(NODES, ENTRIES)));
    return EXIT_SUCCESS;
}
