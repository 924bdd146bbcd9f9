// ping_pong in SystemC: its four processes, and a sink that runs at the start and where p changed.
#include "peer.h"

using namespace sc_core;

SC_MODULE(Ping)
{
    sc_in<int> a;
    sc_out<int> c;
    sc_event go;
    int n = 0;
    const sc_time nanosecond{1, SC_NS};

    SC_CTOR(Ping)
    {
        SC_METHOD(count);
        sensitive << a;
        SC_METHOD(send);
        sensitive << go;
        dont_initialize();
    }

    void count()
    {
        n = a->read() + 1;
        go.notify(nanosecond);
    }

    void send() { c->write(n); }
};

SC_MODULE(Pong)
{
    sc_in<int> a;
    sc_out<int> c;
    sc_event go;
    int n = 0;

    SC_CTOR(Pong)
    {
        SC_METHOD(add);
        sensitive << a;
        dont_initialize();
        SC_METHOD(send);
        sensitive << go;
        dont_initialize();
    }

    void add()
    {
        n = n + a->read();
        go.notify(SC_ZERO_TIME);
    }

    void send() { c->write(a->read()); }
};

SC_MODULE(Sink)
{
    sc_in<int> x;

    SC_CTOR(Sink)
    {
        SC_METHOD(step);
        sensitive << x;
    }

    void step() { write_row(sc_time_stamp().value() / 1'000, 9, x->read()); }
};

int sc_main(int, char **words)
{
    std::fputs("%time p\n", stdout);
    sc_signal<int> p, q;
    Ping ping("ping");
    Pong pong("pong");
    Sink sink("sink");
    ping.a(q);
    ping.c(p);
    pong.a(p);
    pong.c(q);
    sink.x(p);
    run_to(words[1]);
    return 0;
}
