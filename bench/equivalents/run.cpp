// Runs an equivalent that Verilator made to its end, and writes its rows.
#include "Vtop.h"
#include "rows.h"
#include "verilated.h"

extern "C" void put_row(long long time, int digits, int value, int bits) { write_row(time, digits, value, bits); }

// Says nothing of the end.
void vl_finish(const char *, int, const char *) { Verilated::threadContextp()->gotFinish(true); }

int main(int count, char **words)
{
    VerilatedContext context;
    context.commandArgs(count, words);
    Vtop top{&context};
    while (!context.gotFinish()) {
        top.eval();
        if (!top.eventsPending())
            break;
        context.time(top.nextTimeSlot());
    }
    return 0;
}
