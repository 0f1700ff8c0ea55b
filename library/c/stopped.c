/* A call that is stopped at an instruction, for each of its instructions, while another pass gives the last hold on a
   removed key back. Exactly one of the two calls tells the key, and each of them does somewhere.

   The processor stops the call by a SIGTRAP after each instruction, and the handler gives the hold back after the
   chosen one. So this runs under no sanitizer and no memcheck. */
#define _GNU_SOURCE
#include "check.h"
#include <signal.h>
#include <string.h>
#include <ucontext.h>

#define MOST 5000
#define TRAP_FLAG 0x100
#define SLOTS 4096

static const uint64_t words[16] = {1, 2, 3, 4, 5, 6, 7, 8, 9, 10, 11, 12, 13, 14, 15, 16};
static shardheap heap = SHARDHEAP_INIT;
static shardheap_pass owner = SHARDHEAP_INIT, holder = SHARDHEAP_INIT, stopped = SHARDHEAP_INIT;
static uint64_t held, before[SLOTS]; /* the last key of each slot, by the lowest bits of the key */
static volatile uint32_t release_code;
static volatile int steps, chosen, given_back;
static shardheap_ended by_release, by_call;

/* From the end of this handler on the call is stopped after each instruction. */
static void begin(int number, siginfo_t *info, void *context) {
    (void)number, (void)info;
    ((ucontext_t *)context)->uc_mcontext.gregs[REG_EFL] |= TRAP_FLAG;
}

static void step(int number, siginfo_t *info, void *context) {
    (void)number, (void)info;
    if (++steps < chosen) return;
    ((ucontext_t *)context)->uc_mcontext.gregs[REG_EFL] &= ~TRAP_FLAG;
    if (chosen == 0) return;
    release_code = shardheap_release_ended(&holder, held, &by_release);
    given_back = 1;
}

/* A get or a remove of this key, in which the hold is given back after so many instructions. */
static uint32_t stopped_at(int instruction, int removes, uint64_t key) {
    steps = given_back = 0;
    chosen = instruction;
    memset(&by_release, 0, sizeof by_release);
    if (raise(SIGUSR1) != 0) exit(2);
    uint32_t code = removes ? shardheap_remove_ended(&stopped, key, &by_call)
                            : shardheap_get_ended(&stopped, key, &by_call);
    chosen = 0; /* the next step is the last one, and gives nothing back */
    return code;
}

static int is_told(const shardheap_ended *ended, uint64_t count) {
    return ended->key == held && ended->length == count && memcmp(ended->words, words, count * sizeof *words) == 0;
}

/* A value of so many words that is removed and held once. The call is of its key, or of one that was in its slot. */
static void each_instruction(int removes, int stale, uint64_t count) {
    int told_by_call = 0, told_by_release = 0, instruction = 0;
    memset(before, 0, sizeof before);
    do {
        instruction++;
        IS(shardheap_insert(&owner, words, count, &held), SHARDHEAP_OK);
        IS(shardheap_get(&holder, held), SHARDHEAP_OK);
        IS(shardheap_remove_ended(&owner, held, &by_call), SHARDHEAP_OK);
        TRUE(by_call.key == 0);
        uint64_t older = before[held % SLOTS];
        IS(stopped_at(instruction, removes, stale && older != 0 ? older : held), SHARDHEAP_GONE);
        if (given_back) IS(release_code, SHARDHEAP_OK);
        else IS(shardheap_release_ended(&holder, held, &by_release), SHARDHEAP_OK);
        TRUE((by_call.key == 0) != (by_release.key == 0));
        TRUE(is_told(by_call.key == 0 ? &by_release : &by_call, count));
        if (by_call.key != 0) told_by_call++;
        else told_by_release++;
        before[held % SLOTS] = held;
    } while (given_back && instruction < MOST);
    TRUE(!given_back && told_by_call > 0 && told_by_release > 0);
    printf("stopped: %d instructions of a %s of %s key, of which %d leave the end to it\n", instruction - 1,
           removes ? "remove" : "get", stale ? "an older" : "the", told_by_call);
}

static void handles(int number, void (*handler)(int, siginfo_t *, void *)) {
    struct sigaction action;
    memset(&action, 0, sizeof action);
    action.sa_sigaction = handler;
    action.sa_flags = SA_SIGINFO;
    TRUE(sigaction(number, &action, NULL) == 0);
}

static void in_a_heap(uint32_t layout) {
    if (layout == SHARDHEAP_GROWING) IS(shardheap_open_growing(&heap, 1, 1, 1, 3, 1), SHARDHEAP_OK);
    else IS(shardheap_open(&heap, layout, 1, 1, 3), SHARDHEAP_OK);
    IS(shardheap_take(&heap, &owner), SHARDHEAP_OK);
    IS(shardheap_take(&heap, &holder), SHARDHEAP_OK);
    IS(shardheap_take(&heap, &stopped), SHARDHEAP_OK);
    if (layout != SHARDHEAP_GROWING) IS(shardheap_adopt(&owner, 0), SHARDHEAP_OK);
    for (int call = 0; call < 4; call++) each_instruction(call % 2, call / 2, call == 1 ? 1 : 16);
    IS(shardheap_leave(&owner), SHARDHEAP_OK);
    IS(shardheap_give(&owner), SHARDHEAP_OK);
    IS(shardheap_give(&holder), SHARDHEAP_OK);
    IS(shardheap_give(&stopped), SHARDHEAP_OK);
    shardheap_close(&heap);
}

int main(void) {
    handles(SIGUSR1, begin);
    handles(SIGTRAP, step);
    in_a_heap(SHARDHEAP_WIDE);
    in_a_heap(SHARDHEAP_GROWING);
    printf("stopped: %d checks passed\n", checks);
    return 0;
}
