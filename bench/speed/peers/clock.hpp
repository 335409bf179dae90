// The processor time of the thread, in nanoseconds.
#pragma once

#include <cstdint>
#include <ctime>

inline std::uint64_t processor_nanoseconds() {
    timespec now{};
    clock_gettime(CLOCK_THREAD_CPUTIME_ID, &now);
    return static_cast<std::uint64_t>(now.tv_sec) * 1'000'000'000U + static_cast<std::uint64_t>(now.tv_nsec);
}
