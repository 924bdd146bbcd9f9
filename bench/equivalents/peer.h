// What the SystemC equivalents share.
#pragma once

#include "rows.h"

#include <cstdlib>
#include <systemc>

// Runs all that comes before the stop, which is given in nanoseconds, and so much longer.
inline void run_to(const char *stop, sc_core::sc_time longer = sc_core::SC_ZERO_TIME)
{
    using namespace sc_core;
    sc_start(sc_time(std::strtod(stop, nullptr), SC_NS) + longer - sc_get_time_resolution());
}
