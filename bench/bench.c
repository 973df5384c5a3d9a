/* The library beside plain C that keeps the same rules: first whether the two do the same, then how long they take, then the stack. */
#include <stdio.h>

#include "agree.h"
#include "guests.h"
#include "stack.h"
#include "timing.h"
#include "xics.h"

/* a number with its thousands marked; the four in use at a time are apart */
static const char *grouped(size_t n)
{
    static char texts[4][32];
    static int which;
    char *text = texts[which++ % 4] + 31;
    int digits = 0;
    *text = 0;
    do {
        if (digits > 0 && digits % 3 == 0)
            *--text = ',';
        *--text = (char)('0' + n % 10);
        n /= 10;
        digits++;
    } while (n != 0);
    return text;
}

static void print_verdict(double is, double target)
{
    if (is <= target)
        printf("  <= %.4g  met\n", target);
    else
        printf("  <= %.4g  missed by %.3g\n", target, is - target);
}

static void print_scenario(int which)
{
    const struct scenario *s = &scenarios[which];
    double(*t)[ROUNDS] = times[which];
    double ratio = median_ratio(t[LIBRARY], t[PLAIN]);
    printf("%-11s %-5s %12s %10.3f %10.3f %10.3f %9.2f", s->call, guests[s->guest].name, grouped(s->bytes), median(t[BOUND]) / 1e3,
           median(t[PLAIN]) / 1e3, median(t[LIBRARY]) / 1e3, ratio);
    if (s->target != 0)
        print_verdict(ratio, s->target);
    else
        printf("\n");
}

static void print_times(void)
{
    printf("%30s %10s %10s %10s %9s\n", "bytes", "bound", "plain C", "library", "library/");
    printf("%-11s %-5s %12s %10s %10s %10s %9s  target\n", "call", "guest", "touched", "us", "us", "us", "plain C");
    for (int i = 0; i < SCENARIOS; i++)
        print_scenario(i);
}

/* What a guest pays for the room that it does not use. */
static void print_some_to_full(void)
{
    double library = median_ratio(times[LINE_SOME][LIBRARY], times[LINE_FULL][LIBRARY]);
    double plain = median_ratio(times[LINE_SOME][PLAIN], times[LINE_FULL][PLAIN]);
    printf("irq_line, a / full %33.3f %10.3f %9s", plain, library, "");
    print_verdict(library, 0.25);
}

static void print_stack(void)
{
    struct depth plain = plain_depth();
    struct depth library = library_depth();
    printf("most stack, bytes %34s %10s %9s", grouped(plain.bytes), grouped(library.bytes), "");
    if (library.bytes < 65536)
        printf("  < 65,536  met\n");
    else
        printf("  < 65,536  missed by %s\n", grouped(library.bytes - 65535));
    printf("  used by %s and %s\n", plain.call, library.call);
}

/* What names a fault should need no more than what meets it. */
static void print_stack_of_explain(void)
{
    size_t restore = library_depth_of("rk_its_restore"), explain = library_depth_of("rk_its_explain");
    need(restore > 0 && explain > 0, "restore and explain left no mark on the stack");
    printf("stack of restore %35s %10s\n", grouped(plain_depth_of("plain_restore")), grouped(restore));
    printf("stack of explain %35s %10s %9s", grouped(plain_depth_of("plain_explain")), grouped(explain), "");
    if (explain <= restore)
        printf("  <= restore's  met\n");
    else
        printf("  <= restore's  missed by %s\n", grouped(explain - restore));
}

/* the most of the nine calls on an XICS, beside the one that plain C has */
static void print_stack_of_xics(void)
{
    size_t library = library_depth_of("rk_xics_");
    need(library > 0, "the calls on an XICS left no mark on the stack");
    printf("stack of an XICS %35s %10s\n", grouped(plain_depth_of("plain_xics_")), grouped(library));
}

/* so that the table can be read by itself */
static void print_legend(unsigned long compared)
{
    printf("\nOne call in microseconds: the shortest millisecond of at least 50, median of %d rounds. Bound:\n"
           "memcpy and memset of the bytes touched. Plain C keeps the same rules: %s calls were compared\n"
           "first and left the same answer, state and memory. Guests: a 3 devices, 30 events; b no mapping,\n"
           "tables of 128 pages; c 32 devices, 1,024 events, ITTs of 16 bits; small 1 VCPU, no ITS; full 64\n"
           "VCPUs, 32 regions, 1,024 interrupts, 32 devices, 16 collections, 1,024 events. Deliverable is asked\n"
           "of a full XICS: 64 servers, 64 sources. Stack: the deepest byte changed, each call on each guest.\n",
           ROUNDS, grouped(compared));
}

int main(void)
{
    make_guests();
    make_xics();
    unsigned long compared = check_agreement() + check_xics();
    make_scenarios();
    measure();
    check_scenarios();
    print_times();
    print_some_to_full();
    print_stack();
    print_stack_of_explain();
    print_stack_of_xics();
    print_legend(compared);
    return 0;
}
