/* Writes process records of version 3 on standard output, as Linux writes them: struct acct_v3 of
   linux/acct.h, each elapsed time cut to the float's 24 bits, each other number rounded to a comp_t.

       cc -O2 -o acct_v3 benches/acct_v3.c && ./acct_v3 > examples/server.acct
*/
#include <linux/acct.h>
#include <stdint.h>
#include <stdio.h>
#include <string.h>

enum { LONGEST_NAME = 15, FIRST_PID = 400, START = 1772438400 };

struct process {
    const char *name;
    uint32_t uid;
    char flag;
    uint64_t user, system, elapsed; /* in hundredths of a second */
    uint64_t memory;                /* in kB */
    uint64_t faults;
};

/* 13 bits and the least exponent of 8 with which they reach the value, the last digit rounded. */
static comp_t comp_of(uint64_t value)
{
    unsigned exponent = 0, rounds_up = 0;
    while (value > 8191) {
        rounds_up = value >> 2 & 1;
        value >>= 3;
        exponent++;
    }
    value += rounds_up;
    if (value > 8191) {
        value >>= 3;
        exponent++;
    }
    return (comp_t)(exponent << 13 | value);
}

/* The word of the greatest float that is not above the value. */
static float float_of(uint64_t value)
{
    uint32_t word = 0, exponent = 150;
    float cut;
    if (value != 0) {
        while (value >> 24) {
            value >>= 1;
            exponent++;
        }
        while (!(value >> 23)) {
            value <<= 1;
            exponent--;
        }
        word = exponent << 23 | (uint32_t)(value & 0x7FFFFF);
    }
    memcpy(&cut, &word, sizeof cut);
    return cut;
}

int main(void)
{
    static const struct process all[] = {
        {"bash", 1000, 0, 12, 5, 360000, 8000, 900},
        {"bash", 1000, AFORK, 1, 1, 30, 8000, 40},
        {"sleep", 1000, 0, 0, 1, 30, 5500, 60},
        {"sleep", 1000, 0, 0, 0, 6000, 5500, 60},
        {"cc1", 1000, 0, 1500, 40, 1600, 90000, 30000},
        {"cc1", 1000, 0, 2500, 60, 2700, 110000, 41000},
        {"cron", 0, ASU | AFORK, 0, 1, 45, 9000, 70},
        {"cron", 0, ASU | AFORK, 0, 0, 44, 9000, 70},
        {"python3", 1001, ACORE | AXSIG, 700, 20, 123456789, 40000, 9000},
    };
    for (size_t i = 0; i < sizeof all / sizeof *all; i++) {
        const struct process *p = &all[i];
        struct acct_v3 record;
        memset(&record, 0, sizeof record);
        record.ac_flag = p->flag;
        record.ac_version = 3;
        record.ac_exitcode = p->flag & AXSIG ? 139 : 0;
        record.ac_uid = record.ac_gid = p->uid;
        record.ac_pid = FIRST_PID + i;
        record.ac_ppid = 1;
        record.ac_btime = START;
        record.ac_etime = float_of(p->elapsed);
        record.ac_utime = comp_of(p->user);
        record.ac_stime = comp_of(p->system);
        record.ac_mem = comp_of(p->memory);
        record.ac_minflt = comp_of(p->faults);
        memcpy(record.ac_comm, p->name, strnlen(p->name, LONGEST_NAME));
        if (fwrite(&record, sizeof record, 1, stdout) != 1)
            return 1;
    }
    return fflush(stdout) != 0;
}
