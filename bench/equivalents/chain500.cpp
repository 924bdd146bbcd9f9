// chain500 in SystemC: each module is a method at the edges of a clock, and its ports are signals of plain ints. A module at the rate of the source has the
// slow clock, one at twice that rate, or at both, the fast one. So a sample is taken up an edge after it was written, and the sink is late by all of these.
#include "peer.h"

#include <cassert>
#include <memory>
#include <vector>

using namespace sc_core;

SC_MODULE(Source)
{
    sc_in<bool> clock;
    sc_out<int> y;
    int n = 0;

    SC_CTOR(Source)
    {
        SC_METHOD(step);
        sensitive << clock.pos();
        dont_initialize();
    }

    void step()
    {
        y->write(n);
        n = n + 1;
    }
};

// A module of the chain.
struct Module : sc_module
{
    sc_in<bool> clock;
    sc_in<int> x;
    sc_out<int> y;

    SC_HAS_PROCESS(Module);
    explicit Module(sc_module_name name) : sc_module(name)
    {
        SC_METHOD(step);
        sensitive << clock.pos();
        dont_initialize();
    }

    virtual void step() = 0;
};

struct Keep : Module
{
    using Module::Module;

    void step() override { y->write(x->read() + 1); }
};

// Writes two samples for each that it reads, which stays for two edges.
struct Up : Module
{
    bool second;

    Up(sc_module_name name, bool second) : Module(name), second(second) {}

    void step() override
    {
        y->write(second ? x->read() + 1 : x->read());
        second = !second;
    }
};

// Writes one sample for two that it reads.
struct Down : Module
{
    bool second;
    int first = 0;

    Down(sc_module_name name, bool second) : Module(name), second(second) {}

    void step() override
    {
        if (second)
            y->write(first + x->read());
        else
            first = x->read();
        second = !second;
    }
};

SC_MODULE(Sink)
{
    sc_in<bool> clock;
    sc_in<int> x;
    const sc_time late;

    SC_HAS_PROCESS(Sink);
    Sink(sc_module_name name, sc_time late) : sc_module(name), late(late)
    {
        SC_METHOD(step);
        sensitive << clock.pos();
        dont_initialize();
    }

    void step()
    {
        if (sc_time_stamp() >= late)
            write_row((sc_time_stamp() - late).value() / 1'000'000, 6, x->read());
    }
};

int sc_main(int, char **words)
{
    // k, u or d for each module.
    static const char kinds[] = {
#include "kinds.txt"
    };
    std::fputs("%time last\n", stdout);
    sc_clock slow("slow", 1, SC_US), fast("fast", 0.5, SC_US);
    std::vector<sc_signal<int>> signals(sizeof kinds + 1);
    std::vector<std::unique_ptr<Module>> modules;
    Source source("source");
    source.clock(slow);
    source.y(signals[0]);
    // The edge of the fast clock at which the first sample is written; those of the slow one are the even ones.
    int edge = 0;
    bool doubled = false;
    for (char kind : kinds) {
        const auto name = sc_gen_unique_name("module");
        const bool second = edge % 2 == 0;
        if (kind == 'k')
            modules.push_back(std::make_unique<Keep>(name));
        else if (kind == 'u')
            modules.push_back(std::make_unique<Up>(name, second));
        else
            modules.push_back(std::make_unique<Down>(name, second));
        Module &module = *modules.back();
        const bool is_slow = kind == 'k' && !doubled;
        module.clock(is_slow ? slow : fast);
        module.x(signals[modules.size() - 1]);
        module.y(signals[modules.size()]);
        edge += is_slow ? 2 - edge % 2 : kind == 'd' ? 2 : 1;
        doubled ^= kind != 'k';
    }
    assert(!doubled);
    const sc_time late(edge / 2 + 1, SC_US);
    Sink sink("sink", late);
    sink.clock(slow);
    sink.x(signals.back());
    run_to(words[1], late);
    return 0;
}
