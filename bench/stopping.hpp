// A thread that seems to be taken off its processor for a while, wherever it is.
#ifndef BENCH_STOPPING_HPP
#define BENCH_STOPPING_HPP

#include <atomic>
#include <csignal>
#include <ctime>
#include <pthread.h>

class stopping {
public:
    // For so many seconds; for none where they are 0.
    explicit stopping(double seconds) : is_over_(seconds == 0) {
        length_ = {std::time_t(seconds), long((seconds - double(std::time_t(seconds))) * 1e9)};
    }

    // Called by the thread itself, before it can be stopped.
    void can_be_stopped() {
        struct sigaction sleeps {};
        sleeps.sa_handler = [](int) {
            timespec left = length_;
            while (nanosleep(&left, &left) != 0)
                ;
        };
        sigaction(SIGUSR1, &sleeps, nullptr);
        thread_ = pthread_self();
    }

    // Stops it where nobody has yet. Called by another thread, while that one runs.
    void stop_once() {
        if (!is_over_.load(std::memory_order_relaxed) && !is_over_.exchange(true)) pthread_kill(thread_, SIGUSR1);
    }

private:
    inline static timespec length_{}; // since a handler is told no more than the signal
    pthread_t thread_{};
    std::atomic<bool> is_over_;
};

#endif
