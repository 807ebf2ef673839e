/* Counts for tests in which one job reads, and which see that it leaves the others alone. */
#include "small.h"

/* The job that reads, and the counts that each read is lent. */
static uint32_t job, counts[ONEROM_JOBS];

/* What the count of another job holds: no two hold the same. */
static uint32_t another(uint32_t i) {
    return 0x9E3779B1u * (i + 1);
}

/* The job's count from now on; the others hold anything. */
static void count_from(uint32_t count) {
    for (uint32_t i = 0; i < ONEROM_JOBS; i++) counts[i] = i == job ? count : another(i);
}

/* The job's count is this, and the others are as they were. */
static int counted(uint32_t count) {
    for (uint32_t i = 0; i < ONEROM_JOBS; i++)
        if (counts[i] != (i == job ? count : another(i))) return 0;
    return 1;
}
