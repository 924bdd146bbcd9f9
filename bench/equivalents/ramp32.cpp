// ramp32 in SystemC: a method that counts each microsecond, and a sink.
#include "peer.h"

using namespace sc_core;

SC_MODULE(Ramp)
{
    sc_out<int> y;
    int n = 0;
    const sc_time period{1, SC_US};

    SC_CTOR(Ramp) { SC_METHOD(step); }

    void step()
    {
        y->write(n);
        n = n + 1;
        next_trigger(period);
    }
};

SC_MODULE(Sink)
{
    sc_in<int> x;

    SC_CTOR(Sink)
    {
        SC_METHOD(step);
        sensitive << x;
        dont_initialize();
    }

    void step() { write_row(sc_time_stamp().value() / 1'000'000, 6, x->read()); }
};

int sc_main(int, char **words)
{
    std::fputs("%time s\n", stdout);
    sc_buffer<int> s;
    Ramp ramp("ramp");
    Sink sink("sink");
    ramp.y(s);
    sink.x(s);
    run_to(words[1]);
    return 0;
}
