#include "words.h"

#include "ritikancha.h"

#include <inttypes.h>
#include <stdio.h>

/* In which tables a fault can be. */
enum { IN_COLLECTIONS = 1 << RK_TABLE_COLLECTIONS, IN_DEVICES = 1 << RK_TABLE_DEVICES, IN_ITT = 1 << RK_TABLE_ITT };

struct fault {
    const char *name;
    const char *words;
    int64_t answer;
    int tables;
};

static const struct fault faults[FAULT_NUMBERS] = {
    [0] = {"none", "no fault has this number", 0, 0},
    [RK_FAULT_PE] = {"pe", "the collection's VCPU is not there", -RK_EINVAL, IN_COLLECTIONS},
    [RK_FAULT_REPEAT] = {"repeat", "an entry before it has the same ICID", -RK_EINVAL, IN_COLLECTIONS},
    [RK_FAULT_17TH] = {"17th", "one collection too many", -RK_ENOMEM, IN_COLLECTIONS},
    [RK_FAULT_NEXT] = {"next", "it leads past the table or to nothing valid", -RK_EINVAL, IN_DEVICES | IN_ITT},
    [RK_FAULT_SIZE] = {"size", "the device's event IDs have more than 16 bits", -RK_EINVAL, IN_DEVICES},
    [RK_FAULT_33RD] = {"33rd", "one device too many", -RK_ENOMEM, IN_DEVICES},
    [RK_FAULT_OUTSIDE] = {"ITT outside memory", "the device's ITT is not all in the guest's memory", -RK_EFAULT, IN_DEVICES},
    [RK_FAULT_OVERLAP] = {"overlap", "the device's ITT lies over a table or over another ITT", -RK_EINVAL, IN_DEVICES},
    [RK_FAULT_LPI] = {"LPI", "the event's interrupt is no LPI from 8,192 to 65,535", -RK_EINVAL, IN_ITT},
    [RK_FAULT_ICID] = {"ICID not in the collections", "the event's collection is not there", -RK_EINVAL, IN_ITT},
    [RK_FAULT_1025TH] = {"1,025th", "one event too many", -RK_ENOMEM, IN_ITT},
};

static const struct fault *fault_of(int64_t number)
{
    return &faults[number > 0 && number < FAULT_NUMBERS ? number : 0];
}

const char *refusal_words(int64_t answer, size_t state_len)
{
    switch (answer) {
    case -RK_EFAULT:
        if (state_len != (size_t)rk_state_len())
            return "the state has another length than a state has";
        return "the memory has another length than at set-up";
    case -RK_EINVAL:
        return "the state was never set up, or it was damaged";
    case -RK_ENXIO:
        return "the guest is not ready: no ITS INIT yet, or no tables placed";
    case -RK_EBUSY:
        return "the guest runs";
    default:
        return "no refusal";
    }
}

const char *fault_name(int64_t fault)
{
    return fault_of(fault)->name;
}

int64_t answer_of(int64_t fault)
{
    return fault_of(fault)->answer;
}

bool is_code(int64_t code)
{
    int64_t table = RK_TABLE_OF(code);
    if (code <= 0 || code >> 48 != 0 || table > RK_TABLE_ITT)
        return false;
    if (table != RK_TABLE_ITT && RK_DEVICE_OF(code) != 0)
        return false;
    return (fault_of(RK_FAULT_OF(code))->tables >> table & 1) == 1;
}

static void print_table(int64_t code)
{
    switch (RK_TABLE_OF(code)) {
    case RK_TABLE_COLLECTIONS:
        printf("collection table");
        break;
    case RK_TABLE_DEVICES:
        printf("device table");
        break;
    default:
        printf("ITT of device %" PRId64, RK_DEVICE_OF(code));
    }
}

void print_code(int64_t code)
{
    const struct fault *fault = fault_of(RK_FAULT_OF(code));
    print_table(code);
    printf(", entry %" PRId64 ": %s (%s)", RK_ENTRY_OF(code), fault->name, fault->words);
}
