// A thread leaves a number and keeps a promise; the other one waits for the future, and reads the number. And one waits
// for an atomic number to change.
#include <atomic>
#include <cstdio>
#include <future>
#include <thread>

static int answer, second;
static std::atomic<int> step{0};

int main() {
    std::promise<void> promise;
    std::future<void> future = promise.get_future();
    std::thread thread([&] {
        answer = 40;
        promise.set_value();
        step.wait(0);
        second = answer + 1;
    });
    future.wait();
    answer += 2;
    step = 1;
    step.notify_all();
    thread.join();
    std::printf("%d\n", second);
    return 0;
}
