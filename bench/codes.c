/* Runs programs on DPDK's BPF interpreter: rte_bpf_exec, without its compiler. It takes the words of bench/codes.py,
 * WAY FILE RUNS .., and prints WAY FILE NANOSECONDS ANSWER for each.
 *
 * build: gcc -O2 bench/codes.c -o bench/out/codes $(pkg-config --cflags libdpdk) -march=corei7 -lrte_bpf -lrte_eal
 *
 * rte_bpf_load refuses loops, and codes that it doesn't know. So as many moves are loaded, and the program is written over the
 * copy of them that the library made. What the interpreter doesn't know ends a run with 0.
 *
 * Where a file FILE.device is there, the program runs on its sectors, with the helpers of a checker. `again` counts by the slot of
 * its call, so each call gets a function of its own. */
#define _GNU_SOURCE
#include <rte_bpf.h>
#include <rte_errno.h>
#include <stdint.h>
#include <stdio.h>
#include <stdlib.h>
#include <string.h>
#include <sys/mman.h>
#include <time.h>

#define MOST 4096

static double now(void)
{
    struct timespec t;
    clock_gettime(CLOCK_MONOTONIC, &t);
    return t.tv_sec * 1e9 + t.tv_nsec;
}

/* The device, and how often each call of `again` has answered 1. */
#define SECTOR 512
static uint8_t device[64 * SECTOR];
static uint64_t sectors;
#define COUNTS 8
static uint64_t turns[COUNTS];

#define HELPER(name) static uint64_t name(uint64_t a, uint64_t b, uint64_t c, uint64_t d, uint64_t e)

HELPER(sector)
{
    return a < sectors ? (uintptr_t)&device[SECTOR * a] : 0;
}

HELPER(copy)
{
    for (uint64_t at = 0; at < c; at++)
        ((uint8_t *)(uintptr_t)b)[at] = a + at < SECTOR * sectors ? device[a + at] : 0;
    return a + c > SECTOR * sectors;
}

HELPER(report)
{
    return 0;
}

HELPER(zero)
{
    static const uint8_t zeros[SECTOR];
    return a < sectors ? !memcmp(&device[SECTOR * a], zeros, SECTOR) : 2;
}

HELPER(same)
{
    return a < sectors && b < sectors ? !memcmp(&device[SECTOR * a], &device[SECTOR * b], SECTOR) : 2;
}

#define AGAIN(n) \
    HELPER(again##n) \
    { \
        return turns[n] < a ? turns[n]++, 1 : 0; \
    }
AGAIN(0) AGAIN(1) AGAIN(2) AGAIN(3) AGAIN(4) AGAIN(5) AGAIN(6) AGAIN(7)

#define FUNCTION(it) {.name = #it, .type = RTE_BPF_XTYPE_FUNC, .func = {.val = it}}
/* By their numbers; from 8 on those of the calls of `again`. No program here calls `mix`. */
static const struct rte_bpf_xsym helpers[] = {
    FUNCTION(sector), FUNCTION(sector), FUNCTION(copy), FUNCTION(again0), FUNCTION(report), FUNCTION(zero), FUNCTION(zero),
    FUNCTION(same), FUNCTION(again0), FUNCTION(again1), FUNCTION(again2), FUNCTION(again3), FUNCTION(again4), FUNCTION(again5),
    FUNCTION(again6), FUNCTION(again7),
};

/* Gives each call of `again` its own function. */
static void number_calls(struct ebpf_insn *insns, uint32_t count)
{
    int next = 8;
    for (uint32_t at = 0; at < count; at++) {
        if (insns[at].code == 0x85 && insns[at].src_reg == 0 && insns[at].imm == 3)
            insns[at].imm = next++;
        if (next > 8 + COUNTS) {
            fprintf(stderr, "more calls of again than %d\n", COUNTS);
            exit(1);
        }
    }
}

static struct rte_bpf *load(const struct ebpf_insn *insns, uint32_t count)
{
    static struct ebpf_insn moves[MOST];
    struct rte_bpf_prm prm = {.ins = moves, .nb_ins = count, .prog_arg = {.type = RTE_BPF_ARG_RAW, .size = 8}};
    prm.xsym = helpers;
    prm.nb_xsym = sizeof helpers / sizeof *helpers;
    for (uint32_t at = 0; at < count; at++)
        moves[at] = (struct ebpf_insn){.code = at + 1 < count ? 0xb7 : 0x95};
    struct rte_bpf *program = rte_bpf_load(&prm);
    if (!program) {
        fprintf(stderr, "load: %s\n", rte_strerror(rte_errno));
        exit(1);
    }
    /* The parameters stand first in the library's own struct. */
    struct ebpf_insn *own = (struct ebpf_insn *)(uintptr_t)((struct rte_bpf_prm *)program)->ins;
    uintptr_t page = (uintptr_t)program & ~(uintptr_t)4095;
    size_t length = ((uintptr_t)(own + count) - page + 4095) & ~(size_t)4095;
    if (mprotect((void *)page, length, PROT_READ | PROT_WRITE)) {
        perror("mprotect");
        exit(1);
    }
    memcpy(own, insns, count * sizeof *insns);
    return program;
}

static __attribute__((noinline)) uint64_t dpdk_runs(struct rte_bpf *program, void *context, unsigned runs)
{
    uint64_t sum = 0;
    for (unsigned run = 0; run < runs; run++) {
        memset(turns, 0, sizeof turns);
        sum += rte_bpf_exec(program, context);
    }
    return sum;
}

int main(int count, char **words)
{
    static struct ebpf_insn insns[MOST];
    for (int at = 1; at + 2 < count; at += 3) {
        FILE *file = fopen(words[at + 1], "rb");
        if (!file) {
            perror(words[at + 1]);
            return 1;
        }
        size_t slots = fread(insns, sizeof *insns, MOST, file);
        fclose(file);
        uint64_t context[4] = {4, 6, 7, 0};
        char name[4096];
        snprintf(name, sizeof name, "%s.device", words[at + 1]);
        if ((file = fopen(name, "rb"))) {
            sectors = fread(device, SECTOR, sizeof device / SECTOR, file);
            fclose(file);
            memcpy(context, (uint64_t[]){sectors, 0, 1, 0}, sizeof context);
            number_calls(insns, slots);
        }
        struct rte_bpf *program = load(insns, slots);
        double start = now();
        uint64_t answer = dpdk_runs(program, context, atoi(words[at + 2]));
        printf("%s %s %.0f %llu\n", words[at], words[at + 1], now() - start, (unsigned long long)answer);
        rte_bpf_destroy(program);
    }
    return 0;
}
