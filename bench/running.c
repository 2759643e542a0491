/* The programs of bench/crate (argument `running`) on DPDK's BPF interpreter: rte_bpf_exec, without
 * its compiler. Prints the steps a second in millions, the best of five rounds.
 *
 * build: gcc -O2 bench/running.c -o bench/out/running $(pkg-config --cflags libdpdk) -march=corei7 -lrte_bpf -lrte_eal
 *
 * rte_bpf_load refuses loops. So a loop is loaded with a jump forward, and the distance of that jump
 * is changed in the copy that the library made. */
#define _GNU_SOURCE
#include <rte_bpf.h>
#include <rte_errno.h>
#include <stdint.h>
#include <stdio.h>
#include <stdlib.h>
#include <sys/mman.h>
#include <time.h>

#define ROUNDS 5
#define INSN(c, d, s, o, i) ((struct ebpf_insn){.code = (c), .dst_reg = (d), .src_reg = (s), .off = (o), .imm = (i)})

static double now(void)
{
    struct timespec t;
    clock_gettime(CLOCK_MONOTONIC, &t);
    return t.tv_sec + 1e-9 * t.tv_nsec;
}

static struct rte_bpf *load(struct ebpf_insn *insns, uint32_t count, size_t context)
{
    struct rte_bpf_prm prm = {
        .ins = insns,
        .nb_ins = count,
        .prog_arg = {.type = context ? RTE_BPF_ARG_PTR : RTE_BPF_ARG_RAW, .size = context ? context : 8},
    };
    struct rte_bpf *program = rte_bpf_load(&prm);
    if (!program) {
        fprintf(stderr, "load: %s\n", rte_strerror(rte_errno));
        exit(1);
    }
    return program;
}

/* The parameters stand first in the library's own struct. */
static void change_distance(struct rte_bpf *program, unsigned at, int distance)
{
    struct ebpf_insn *insns = (struct ebpf_insn *)(uintptr_t)((struct rte_bpf_prm *)program)->ins;
    uintptr_t page = (uintptr_t)program & ~(uintptr_t)4095;
    size_t length = ((uintptr_t)(insns + at + 1) - page + 4095) & ~(size_t)4095;
    if (mprotect((void *)page, length, PROT_READ | PROT_WRITE)) {
        perror("mprotect");
        exit(1);
    }
    insns[at].off = distance;
}

static void time_runs(const char *name, struct rte_bpf *program, void *context, double steps, unsigned runs)
{
    double best = 1e9;
    uint64_t answers = 0;
    for (int round = 0; round < ROUNDS; round++) {
        double start = now();
        answers = 0;
        for (unsigned run = 0; run < runs; run++)
            answers += rte_bpf_exec(program, context);
        double time = now() - start;
        best = time < best ? time : best;
    }
    printf("%-8s %10.1f %14.1f %22llu\n", name, steps * runs / best / 1e6, best / runs * 1e9, (unsigned long long)answers);
}

int main(void)
{
    struct ebpf_insn count[] = {
        INSN(0xb7, 0, 0, 0, 0), INSN(0xb7, 1, 0, 0, 20000000), INSN(0xb7, 2, 0, 0, 0), INSN(0x07, 0, 0, 0, 3),
        INSN(0xaf, 0, 1, 0, 0), INSN(0xbf, 2, 0, 0, 0), INSN(0x17, 1, 0, 0, 1), INSN(0x55, 1, 0, 0, 0), INSN(0x95, 0, 0, 0, 0),
    };
    struct ebpf_insn memory[] = {
        INSN(0xb7, 0, 0, 0, 0), INSN(0xb7, 3, 0, 0, 12500000), INSN(0x7b, 10, 0, -8, 0), INSN(0x79, 2, 1, 8, 0),
        INSN(0x0f, 2, 3, 0, 0), INSN(0x7b, 10, 2, -8, 0), INSN(0x79, 4, 10, -8, 0), INSN(0x0f, 0, 4, 0, 0),
        INSN(0x71, 5, 10, -8, 0), INSN(0x17, 3, 0, 0, 1), INSN(0x55, 3, 0, 0, 0), INSN(0x95, 0, 0, 0, 0),
    };
    static uint64_t context[4] = {4, 6, 7, 0};
    struct ebpf_insn row[3999];
    unsigned length = 0;
    row[length++] = INSN(0xb7, 0, 0, 0, 0);
    row[length++] = INSN(0xb7, 1, 0, 0, 7);
    while (length < 3998) {
        row[length] = count[3 + (length - 2) % 4];
        length++;
    }
    row[length++] = INSN(0x95, 0, 0, 0, 0);

    struct rte_bpf *program = load(count, 9, 0);
    change_distance(program, 7, -5);
    printf("%-8s %10s %14s %22s\n", "program", "M steps/s", "ns a run", "answers");
    time_runs("count", program, NULL, 100000004, 1);
    program = load(memory, 12, sizeof context);
    change_distance(program, 10, -8);
    time_runs("memory", program, context, 100000004, 1);
    time_runs("row", load(row, length, 0), NULL, length, 25000);
    return 0;
}
