// Blocks whose types are known by constructors and templates, or by the source. Two threads use each.
#include <memory>
#include <thread>

struct Base {
    int id = 0;
    virtual ~Base() = default;
};
struct Entry : Base {
    int uses = 0;
};
struct Plain {
    int a, b;
};
struct Owner {
    Plain *first;
    Owner() : first(new Plain{1, 2}) {}
};
static Entry *entry;
static Owner *owner;
static Plain *several;
static std::unique_ptr<Plain> unique;
static std::unique_ptr<Plain[]> many;
static std::shared_ptr<Plain> shared;
static int *numbers;
static short *halves;

static void work() {
    entry->id++;
    entry->uses++;
    owner->first->b++;
    owner->first = owner->first + 0;
    several[2].a++;
    unique->a++;
    many[3].b++;
    shared->b++;
    numbers[1]++;
    halves[2]++;
}

int main() {
    entry = new Entry;
    owner = new Owner;
    several = new Plain[3]();
    unique = std::make_unique<Plain>();
    many = std::make_unique<Plain[]>(4);
    shared = std::make_shared<Plain>();
    // Two blocks of one size on a line.
    numbers = new int[2](), halves = new short[4]();
    std::thread a(work), b(work);
    a.join();
    b.join();
    return 0;
}
