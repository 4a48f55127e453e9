// The two deletions of a member in C++, each in all its forms: what glue.cpp and glue_typed.cpp try of both.
#ifndef DELETIONS_HPP
#define DELETIONS_HPP

#include "klsm.hpp"

#include "stub.h"

struct refilling {
    static constexpr stub_call call = STUB_TRY_DELETE_MIN;
    template <class Member, class... To> static auto waits(Member &by, To &...to) { return by.delete_min(to...); }
    template <class Member, class... To> static auto tries(Member &by, To &...to) { return by.try_delete_min(to...); }
};

struct alone {
    static constexpr stub_call call = STUB_TRY_DELETE_MIN_ALONE;
    template <class Member, class... To> static auto waits(Member &by, To &...to) { return by.delete_min_alone(to...); }
    template <class Member, class... To> static auto tries(Member &by, To &...to) {
        return by.try_delete_min_alone(to...);
    }
};

#endif
