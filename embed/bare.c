// The desk without a C library: a program of its own from the first instruction, as firmware is. It compiles a rule, decides a request and lists a sheet of one row; its exit status
// is 0 if all is as it must be. The calls need no function of a library but memcpy and memset, which a compiler may ask for anywhere.
#include "desk.h"

#define LENT(s) (const uint8_t *)(s), sizeof(s) - 1

void *memcpy(void *to, const void *from, size_t n) {
    volatile uint8_t *t = to;
    for (const uint8_t *f = from; n > 0; n--) *t++ = *f++;
    return to;
}

void *memset(void *at, int byte, size_t n) {
    volatile uint8_t *t = at;
    for (; n > 0; n--) *t++ = (uint8_t)byte;
    return at;
}

static const char rule[] = "permit(principal is tool, action, resource) when { env.speed < 0.5 };";
static uint8_t table[8 * sizeof rule], page[DESK_ROW_BYTES];

static int right(void) {
    DeskCompiled c = desk_compile(LENT(rule), table, sizeof table, DESK_RULES_VERSION_1);
    DeskDecision d = desk_decide(LENT(rule), table, sizeof table, LENT("\0\0\1\5speed\2\0\0\0\0\0\0\xD0\x3F"), LENT("tool:T1"), LENT("teach"), LENT("shaft:A"));
    DeskPage p = desk_sheet(LENT(rule), table, sizeof table, LENT("\0\0\1\5speed\2\0\0\0\0\0\0\xD0\x3F\0"), LENT("tool:T1"), LENT("teach"), LENT("shaft:A"), 0, page, sizeof page, 0);
    return c.refusal == 0 && c.policies == 1 && d.refusal == 0 && d.outcome == 1 && d.policy == 1 && d.mark == 1 && p.refusal == 0 && p.written == 1 && p.next == 1 && page[4] == 1 && page[5] == 1 && page[6] == 1 && page[13] == 0;
}

static void leave(long status) {
    __asm__ volatile("syscall" : : "a"(60), "D"(status) : "rcx", "r11", "memory");
    __builtin_unreachable();
}

__attribute__((force_align_arg_pointer)) void _start(void) { leave(right() ? 0 : 1); }
