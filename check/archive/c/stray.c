/* Functions with the interfaces of trench_plan, trench_plan_in, trench_words, trench_job, trench_job_place, trench_corner, trench_choose
 * and trench_choose_place that do what those must not: the tests see that each is noticed. */
#include <stddef.h>
#include <stdint.h>

/* Does the deed of number job_len to what is before or behind the job, or to the job, which it may only read. Answers -4. */
int32_t stray_ask(const uint8_t *job, size_t job_len);

int32_t stray_ask(const uint8_t *job, size_t job_len)
{
    switch (job_len) {
    case 1: *(volatile uint8_t *)(uintptr_t)job ^= 1; break;
    case 2: (void)*(const volatile uint8_t *)(job - 1); break;
    case 3: (void)*(const volatile uint8_t *)(job + job_len); break;
    default: break;
    }
    return -4;
}

/* The same, and to what is before or behind the plan buffer. */
int32_t stray_plan(const uint8_t *job, size_t job_len, uint8_t *out, size_t out_len);

int32_t stray_plan(const uint8_t *job, size_t job_len, uint8_t *out, size_t out_len)
{
    switch (job_len) {
    case 4: *(volatile uint8_t *)(out - 1) ^= 1; break;
    case 5: *(volatile uint8_t *)(out + out_len) ^= 1; break;
    default: break;
    }
    return stray_ask(job, job_len);
}

/* The same, and to what is before or behind the work words. */
int32_t stray_plan_in(const uint8_t *job, size_t job_len, uint32_t *work, size_t work_len, uint8_t *out, size_t out_len);

int32_t stray_plan_in(const uint8_t *job, size_t job_len, uint32_t *work, size_t work_len, uint8_t *out, size_t out_len)
{
    switch (job_len) {
    case 6: *(volatile uint32_t *)(work - 1) ^= 1; break;
    case 7: *(volatile uint32_t *)(work + work_len) ^= 1; break;
    case 8: (void)*(const volatile uint32_t *)(work - 1); break;
    case 9: (void)*(const volatile uint32_t *)(work + work_len); break;
    default: break;
    }
    return stray_plan(job, job_len, out, out_len);
}

/* Does the deed of number i to what is before or behind its parts, or to a part that it may only read. Answers 0. */
size_t stray_corner(const uint8_t *book, size_t book_len, const uint32_t *places, size_t places_len, size_t i, size_t j,
                    int32_t *corner, size_t corner_len);

size_t stray_corner(const uint8_t *book, size_t book_len, const uint32_t *places, size_t places_len, size_t i, size_t j,
                    int32_t *corner, size_t corner_len)
{
    (void)j;
    switch (i) {
    case 0: *(volatile int32_t *)(corner - 1) ^= 1; break;
    case 1: *(volatile int32_t *)(corner + corner_len) ^= 1; break;
    case 2: *(volatile uint8_t *)(uintptr_t)book ^= 1; break;
    case 3: *(volatile uint32_t *)(uintptr_t)places ^= 1; break;
    case 4: (void)*(const volatile uint8_t *)(book - 1); break;
    case 5: (void)*(const volatile uint8_t *)(book + book_len); break;
    case 6: (void)*(const volatile uint32_t *)(places - 1); break;
    case 7: (void)*(const volatile uint32_t *)(places + places_len); break;
    case 8: *(volatile uint8_t *)(uintptr_t)(book - 1) ^= 1; break;
    default: break;
    }
    return 0;
}

/* Does the deed of this number to what is before or behind its parts, or to the list, which it may only read. Answers -4. */
int32_t stray_job(uint32_t number, const int32_t *runs, size_t runs_len, uint8_t *out, size_t out_len);

int32_t stray_job(uint32_t number, const int32_t *runs, size_t runs_len, uint8_t *out, size_t out_len)
{
    switch (number) {
    case 0: *(volatile uint8_t *)(out - 1) ^= 1; break;
    case 1: *(volatile uint8_t *)(out + out_len) ^= 1; break;
    case 2: *(volatile int32_t *)(uintptr_t)runs ^= 1; break;
    case 3: (void)*(const volatile int32_t *)(runs - 1); break;
    case 4: (void)*(const volatile int32_t *)(runs + runs_len); break;
    case 5: *(volatile int32_t *)(uintptr_t)(runs - 1) ^= 1; break;
    case 6: *(volatile int32_t *)(uintptr_t)(runs + runs_len) ^= 1; break;
    default: break;
    }
    return -4;
}

/* The same for a buffer that it may only read; with number 7 it writes into that. Answers 0. */
size_t stray_job_place(uint32_t number, const int32_t *runs, size_t runs_len, const uint8_t *out, size_t out_len);

size_t stray_job_place(uint32_t number, const int32_t *runs, size_t runs_len, const uint8_t *out, size_t out_len)
{
    uint8_t *buffer = (uint8_t *)(uintptr_t)out;
    if (number == 7)
        *(volatile uint8_t *)buffer = *buffer;
    else
        stray_job(number, runs, runs_len, buffer, out_len);
    return 0;
}

/* Does the deed of number job_len to what is before or behind its parts, or to a part, all of which it may only read. Answers -4. */
int32_t stray_choose(const uint8_t *job, size_t job_len, const uint8_t *first, size_t first_len, const uint8_t *second,
                     size_t second_len);

int32_t stray_choose(const uint8_t *job, size_t job_len, const uint8_t *first, size_t first_len, const uint8_t *second,
                     size_t second_len)
{
    const uint8_t *before[] = { job - 1, first - 1, second - 1 }, *part[] = { job, first, second };
    const uint8_t *behind[] = { job + job_len, first + first_len, second + second_len };
    const uint8_t *at = (job_len / 3 % 3 == 0 ? before : job_len / 3 % 3 == 1 ? part : behind)[job_len % 3];
    if (job_len < 9)
        (void)*(const volatile uint8_t *)at;
    else
        *(volatile uint8_t *)(uintptr_t)at ^= 1;
    return -4;
}

/* The same; answers 0. */
size_t stray_choose_place(const uint8_t *job, size_t job_len, const uint8_t *first, size_t first_len, const uint8_t *second,
                          size_t second_len);

size_t stray_choose_place(const uint8_t *job, size_t job_len, const uint8_t *first, size_t first_len, const uint8_t *second,
                          size_t second_len)
{
    stray_choose(job, job_len, first, first_len, second, second_len);
    return 0;
}
