// The table of virtual functions of an object that is made again in its place, while another thread calls one of them.
#include <cstdio>
#include <new>
#include <thread>
struct Shape {
    Shape() {} // RACE table
    virtual int sides() const { return 0; }
};
struct Square : Shape {
    Square() {} // RACE table
    int sides() const override { return 4; }
};
alignas(Square) static unsigned char place[sizeof(Square)];
static Shape *shape;
static int sum;

int main() {
    shape = new (place) Shape;
    std::thread a([] { new (place) Square; }), b([] {
        sum += shape->sides(); // RACE table
    });
    a.join(), b.join();
    std::printf("%d\n", sum > 4);
}
