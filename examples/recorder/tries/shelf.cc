// A thread waits for what another one puts on a shelf, by what the library of C++ has, and ends it.
#include <condition_variable>
#include <cstdio>
#include <mutex>
#include <thread>

namespace shop {

struct Item {
    int price = 1;
};

class Shelf {
  public:
    void put(Item *item) {
        std::lock_guard<std::mutex> guard(lock);
        first = item;
        filled.notify_one();
    }

    Item *take() {
        std::unique_lock<std::mutex> guard(lock);
        while (!first) filled.wait(guard);
        return first;
    }

  private:
    std::mutex lock;
    std::condition_variable filled;
    Item *first = nullptr;
};

}  // namespace shop

static shop::Shelf shelf;

static void buy() {
    shop::Item *item = shelf.take();
    std::printf("%d\n", item->price);
    delete item;
}

int main() {
    std::thread buyer(buy);
    shop::Item *item = new shop::Item;
    item->price = 5;
    shelf.put(item);
    buyer.join();
    return 0;
}
