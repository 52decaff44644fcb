/* How much stack a call of each function takes: each is run on a painted stack of its own, and what is no longer paint was taken. Each is
 * the first call in a process of its own, so that the dynamic linker looks up memset for it (the gate links this with lazy binding, and
 * nothing here calls memset). Ends with status 1 where a call takes more than the header says. */
#include "nizkabel.h"
#include <stdio.h>
#include <sys/wait.h>
#include <ucontext.h>
#include <unistd.h>

static volatile unsigned char stack[1 << 20];
static ucontext_t here, there;
static uint16_t plan[NIZKABEL_PLAN_ROOM];
static uint16_t list[NIZKABEL_LIST_ROOM];
static uint32_t position[NIZKABEL_POSITION_ROOM];
static uint8_t copy[NIZKABEL_COPY_ROOM];
static uint32_t out[3];
static uint64_t moves[1];

/* K, whose carrier goes home, with its plan as a sheet, its moves as a log, a log that goes on from home, and a position in which the carrier is in
 * both zones; the far loop, with the sheet that says who is blocked there; T in version 2 with 7 and 263, whose low bytes are equal, with its
 * position; 96 zones between two points, in which all are blocked, with carriers in an order that the library's sort goes deepest into, so that
 * what its calls of itself take is measured too, and the sheet that names them. */
static const uint8_t k[] = {0, 12, 1, 2, 0, 2, 0, 1, 7, 0, 0, 1, 0, 0};
static const uint16_t plan_of_k[] = {0, 7, 2, 0, 3};
static const uint16_t moves_of_k[] = {7, 3, 7, NIZKABEL_HOME};
static const uint16_t runs_on[] = {7, 3, 7, 0};
static const uint32_t in_both[] = {14, 15};
static const uint8_t far_loop[] = {0, 20, 1, 4, 0, 4, 0, 1, 5, 0, 1, 2, 6, 0, 2, 3, 0, 0, 2, 3, 0, 0};
static const uint16_t claim[] = {1, 5, 6};
static const uint8_t wide[] = {0, 14, 2, 2, 0, 2, 0, 1, 0, 7, 0, 0, 1, 1, 7, 0};
static const uint32_t position_of_wide[] = {2 * 7, 2 * 263};
static const uint8_t deep_order[] = {
    90, 86, 38, 52, 78, 42, 8,  60, 53, 10, 65, 83, 39, 68, 80, 35, 21, 15, 77, 43, 58, 49, 66, 92, 45, 55, 93, 63, 89, 34, 67, 1,
    24, 82, 36, 18, 85, 64, 47, 7,  69, 59, 75, 91, 11, 96, 95, 57, 87, 84, 41, 73, 88, 48, 5,  17, 20, 26, 54, 46, 22, 23, 94, 40,
    6,  71, 29, 3,  62, 30, 28, 14, 19, 4,  27, 72, 79, 2,  76, 51, 81, 37, 74, 61, 33, 25, 9,  50, 70, 56, 31, 32, 12, 44, 13, 16};
static uint8_t deep[6 + 4 * 96] = {1, 132, 1, 2, 0, 96};
static uint16_t claim_deep[1 + 96] = {1};
static uint32_t number;

static void key(void) { number = nizkabel_key(k, sizeof k, plan, NIZKABEL_PLAN_ROOM, list, NIZKABEL_LIST_ROOM, out); }
static void key_blocked(void) { number = nizkabel_key(far_loop, sizeof far_loop, plan, NIZKABEL_PLAN_ROOM, list, NIZKABEL_LIST_ROOM, out); }
static void key_wide(void) { number = nizkabel_key(wide, sizeof wide, plan, NIZKABEL_PLAN_ROOM, list, NIZKABEL_LIST_ROOM, out); }
static void key_deep(void) { number = nizkabel_key(deep, sizeof deep, plan, NIZKABEL_PLAN_ROOM, list, NIZKABEL_LIST_ROOM, out); }
static void collapse_deep(void) { number = nizkabel_collapse(deep, sizeof deep, list, NIZKABEL_LIST_ROOM, out); }
static void mark_deep(void) { number = nizkabel_mark(deep, sizeof deep, claim_deep, 97); }
static void collapse(void) { number = nizkabel_collapse(far_loop, sizeof far_loop, list, NIZKABEL_LIST_ROOM, out); }
static void mark(void) { number = nizkabel_mark(k, sizeof k, plan_of_k, 5); }
static void mark_claim(void) { number = nizkabel_mark(far_loop, sizeof far_loop, claim, 3); }
static void replay(void) { number = nizkabel_replay(k, sizeof k, moves_of_k, 4, position, NIZKABEL_POSITION_ROOM, moves); }
static void replay_stopped(void) { number = nizkabel_replay(k, sizeof k, runs_on, 4, position, NIZKABEL_POSITION_ROOM, moves); }
static void write_wide(void) { number = nizkabel_write(wide, sizeof wide, position_of_wide, 2, copy, NIZKABEL_COPY_ROOM, out); }
static void write_twice(void) { number = nizkabel_write(k, sizeof k, in_both, 2, copy, NIZKABEL_COPY_ROOM, out); }

static size_t taken(void) {
    size_t low = 0;
    while (low < sizeof stack && stack[low] == 0xA5) low++;
    return sizeof stack - low;
}

static int fits(const char *name, void (*call)(void), uint32_t expected, size_t most) {
    fflush(stdout);
    pid_t child = fork();
    if (child != 0) {
        int status = 1;
        return child > 0 && waitpid(child, &status, 0) == child && status == 0;
    }
    for (size_t i = 0; i < sizeof stack; i++) stack[i] = 0xA5;
    getcontext(&there);
    there.uc_stack.ss_sp = (void *)stack;
    there.uc_stack.ss_size = sizeof stack;
    there.uc_link = &here;
    makecontext(&there, call, 0);
    swapcontext(&here, &there);
    int good = number == expected && taken() <= most;
    printf("%s: number %u, %zu bytes of stack, at most %zu\n", name, number, taken(), most);
    fflush(stdout);
    _exit(!good);
}

int main(void) {
    for (int z = 0; z < 96; z++) {
        deep[6 + 4 * z + 1] = 1;
        deep[6 + 4 * z + 2] = deep_order[z];
        claim_deep[1 + z] = (uint16_t)(z + 1);
    }
    int good = fits("key", key, NIZKABEL_ORDERED, NIZKABEL_STACK);
    good &= fits("key, blocked", key_blocked, NIZKABEL_BLOCKED, NIZKABEL_STACK);
    good &= fits("key, version 2", key_wide, NIZKABEL_BLOCKED, NIZKABEL_STACK);
    good &= fits("key, deepest sort", key_deep, NIZKABEL_BLOCKED, NIZKABEL_STACK);
    good &= fits("collapse, deepest sort", collapse_deep, NIZKABEL_COLLAPSED, NIZKABEL_STACK / 2);
    good &= fits("mark, deepest sort", mark_deep, NIZKABEL_RIGHT, NIZKABEL_STACK / 2);
    good &= fits("collapse", collapse, NIZKABEL_COLLAPSED, NIZKABEL_STACK / 2);
    good &= fits("mark of a plan", mark, NIZKABEL_RIGHT, NIZKABEL_STACK / 2);
    good &= fits("mark of a claim", mark_claim, NIZKABEL_RIGHT, NIZKABEL_STACK / 2);
    good &= fits("replay", replay, NIZKABEL_REPLAYED, NIZKABEL_STACK / 2);
    good &= fits("replay, stopped", replay_stopped, NIZKABEL_FORBIDDEN, NIZKABEL_STACK / 2);
    good &= fits("write", write_wide, NIZKABEL_WRITTEN, NIZKABEL_STACK / 2);
    good &= fits("write, turned back", write_twice, NIZKABEL_CARRIER_TWICE, NIZKABEL_STACK / 2);
    return !good;
}
