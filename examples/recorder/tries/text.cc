// Two threads put letters behind a text, under a lock.
#include <cstdio>
#include <mutex>
#include <string>
#include <thread>

static std::string text;
static std::mutex lock;

static void put(char letter) {
    for (int i = 0; i < 6; i++) {
        std::lock_guard<std::mutex> held(lock);
        text.push_back(letter);
        text += "bc";
        if (i % 4 == 3) text.resize(text.size() / 2);
    }
}

int main() {
    std::thread one(put, 'x'), two(put, 'y');
    one.join();
    two.join();
    std::printf("%zu\n", text.size());
    return 0;
}
