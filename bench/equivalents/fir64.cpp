// fir64 in SystemC: a source each microsecond, a filter at each of its samples, and a sink. A sample is an int in units of 2^-12.
#include "peer.h"

using namespace sc_core;

SC_MODULE(Source)
{
    sc_out<int> y;
    std::int16_t n = 0;
    const sc_time period{1, SC_US};

    SC_CTOR(Source) { SC_METHOD(step); }

    void step()
    {
        y->write(static_cast<std::int16_t>(n << 6));
        n = static_cast<std::int16_t>(n * 5 + 7);
        next_trigger(period);
    }
};

SC_MODULE(Filter)
{
    sc_in<int> x;
    sc_out<int> y;
    const std::int16_t h[64] = {
#include "taps.txt"
    };
    std::int16_t z[64] = {};

    SC_CTOR(Filter)
    {
        SC_METHOD(step);
        sensitive << x;
        dont_initialize();
    }

    void step()
    {
        for (int i = 0; i < 63; ++i)
            z[63 - i] = z[62 - i];
        z[0] = static_cast<std::int16_t>(x->read());
        std::int16_t a = 0;
        for (int i = 0; i < 64; ++i)
            a = static_cast<std::int16_t>(a + (h[i] * z[i] >> 12));
        y->write(a);
    }
};

SC_MODULE(Sink)
{
    sc_in<int> x;

    SC_CTOR(Sink)
    {
        SC_METHOD(step);
        sensitive << x;
        dont_initialize();
    }

    void step() { write_row(sc_time_stamp().value() / 1'000'000, 6, x->read(), 12); }
};

int sc_main(int, char **words)
{
    std::fputs("%time v\n", stdout);
    sc_buffer<int> u, v;
    Source source("source");
    Filter filter("filter");
    Sink sink("sink");
    source.y(u);
    filter.x(u);
    filter.y(v);
    sink.x(v);
    run_to(words[1]);
    return 0;
}
