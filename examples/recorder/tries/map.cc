// Two threads put numbers into a map; under a lock where LOCKED says so.
#include <cstdio>
#include <map>
#include <mutex>
#include <thread>

static std::map<int, int> squares;
static std::mutex lock;

static void put(int from) {
    for (int i = from; i < from + 4; i++) {
        if (LOCKED) lock.lock();
        squares[i] = i * i;
        if (i % 4 == 3) squares.erase(i);
        if (LOCKED) lock.unlock();
    }
}

int main() {
    std::thread one(put, 0), two(put, 4);
    one.join();
    two.join();
    int sum = 0;
    for (auto &[number, square] : squares) sum += square;
    std::printf("%d\n", sum);
    return 0;
}
