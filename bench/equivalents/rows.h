// Rows of a table as `tdf run` writes them.
#pragma once

#include <charconv>
#include <cstdint>
#include <cstdio>

constexpr std::uint64_t power(std::uint64_t base, int exponent)
{
    std::uint64_t product = 1;
    for (; exponent > 0; --exponent)
        product *= base;
    return product;
}

// Appends the fraction part / 10^digits: a point and its digits up to the last that isn't 0, or nothing.
inline char *put_fraction(char *to, std::uint64_t part, int digits)
{
    if (part == 0)
        return to;
    for (; part % 10 == 0; part /= 10)
        --digits;
    *to = '.';
    for (int place = digits; place > 0; --place, part /= 10)
        to[place] = static_cast<char>('0' + part % 10);
    return to + digits + 1;
}

// Writes the row of a time in units of 10^-digits s and a value in units of 2^-bits.
inline void write_row(std::uint64_t time, int digits, int value, int bits = 0)
{
    const std::uint64_t second = power(10, digits);
    char row[64];
    char *end = std::to_chars(row, row + 24, time / second).ptr;
    end = put_fraction(end, time % second, digits);
    *end++ = ' ';
    if (value < 0)
        *end++ = '-';
    const unsigned magnitude = value < 0 ? 0u - value : value;
    end = std::to_chars(end, end + 12, magnitude >> bits).ptr;
    end = put_fraction(end, (magnitude & ((1u << bits) - 1)) * power(5, bits), bits);
    *end++ = '\n';
    fwrite_unlocked(row, 1, end - row, stdout);
}
