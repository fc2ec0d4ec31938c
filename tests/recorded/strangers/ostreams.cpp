// Streams of C++ that threads share: what is written to one without a lock is a race, also if the text is read. Behind a
// lock, and by the standard streams, it is none.
#include <cstdio>
#include <fstream>
#include <iostream>
#include <mutex>
#include <sstream>
#include <thread>
static std::ostringstream numbers, words, looked_at, guarded;
static std::ofstream file("/dev/null");
static std::mutex m;
// The library reads this one by a function of std::string, which has hooks: the place is the program's.
static std::ostringstream given;
static std::string to_give = "a text that is longer than sixteen bytes";
static char text[] = "text that is written\n";
static volatile size_t seen;

static void writes() {
    numbers << 5; // RACE numbers
    words << text; // RACE words
    text[3] = 't'; // RACE text
    looked_at << 2.5; // RACE looked
    file << 'x' << 7L; // RACE file
    given.str(to_give); // RACE given
    std::lock_guard<std::mutex> l(m);
    guarded << "one " << 2u << true << std::endl;
    std::cout << "one\n";
}

static void reads() {
    numbers << -3L; // RACE numbers
    words << std::string("word"); // RACE words
    std::cout << text; // RACE text
    seen = looked_at.str().size(); // RACE looked
    file.write("abc", 3); // RACE file
    to_give[20] = 'r'; // RACE given
    std::lock_guard<std::mutex> l(m);
    guarded << 4.0f << (const void *)nullptr;
    guarded.put('c');
}

int main() {
    std::thread a(writes), b(reads);
    a.join(), b.join();
    std::printf("%zu\n", guarded.str().size());
}
