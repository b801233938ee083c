/* Traps, the timer, and what the kernel does once it is booted. */
#include "kernel.h"

enum { EXCEPTIONS = 32, PAGE_FAULT = 14, TIMER = 32, SYSTEM_CALL = 0x80, GATES = 0x81 };
enum { CODE_SEGMENT = 8, FOR_RING_0 = 0x8e, FOR_RING_3 = 0xee };

static struct gate {
    uint16_t low, segment;
    uint8_t stack, kind;
    uint16_t middle;
    uint32_t high, reserved;
} gates[GATES];

extern const char page_fault[], system_call[], other_exception[], timer[]; /* boot.S */
extern const char six_records[], six_answers[], chain_records[], chain_answers[]; /* user.S */

_Noreturn void fail_by_exception(void);
_Noreturn void kernel_main(void);

static void set_gate(uint32_t number, const char *code, uint8_t kind) {
    uint64_t at = (uint64_t)code;
    gates[number] = (struct gate){(uint16_t)at, CODE_SEGMENT, 0, kind, (uint16_t)(at >> 16), (uint32_t)(at >> 32), 0};
}

static void set_up_traps(void) {
    const struct __attribute__((packed)) {
        uint16_t last;
        const void *gates;
    } pointer = {sizeof gates - 1, gates};
    for (uint32_t i = 0; i < EXCEPTIONS; i++) {
        set_gate(i, other_exception, FOR_RING_0);
    }
    set_gate(PAGE_FAULT, page_fault, FOR_RING_0);
    set_gate(TIMER, timer, FOR_RING_0);
    set_gate(SYSTEM_CALL, system_call, FOR_RING_3);
    __asm__ volatile("lidt %0" : : "m"(pointer));
}

/* The timer ticks a thousand times a second. No other device interrupts. */
static void start_timer(void) {
    static const uint8_t writes[][2] = {{0x20, 0x11}, {0x21, TIMER}, {0x21, 4},    {0x21, 1}, {0x21, 0xfe},
                                        {0xa1, 0xff}, {0x43, 0x34},  {0x40, 0xa9}, {0x40, 4}};
    for (size_t i = 0; i < sizeof writes / sizeof writes[0]; i++) {
        write_port(writes[i][0], writes[i][1]);
    }
    __asm__ volatile("sti");
}

void fail_by_exception(void) {
    fail("call %u: an exception that is no page fault of ring 3", counts.calls);
}

void kernel_main(void) {
    set_up_traps();
    start_timer();
    fill_frames();
    replay("first-six-records", six_records, six_answers);
    replay("chain-and-its-revocation", chain_records, chain_answers);
    call_at_random();
    say("%u calls noted %u changes of pages", counts.calls, counts.changes);
    say("%u accesses in ring 3 were made, %u were faults", counts.made, counts.faults);
    say("%u walks over the page tables found what the database holds", counts.walks);
    say("the timer interrupted %u times", ticks);
    leave(true);
}
