// Streams of C++ that threads read: two that read one stream without a lock race, and so do two of which one changes
// what the other reads into. After a lock, and by the standard streams, there is no race.
#include <atomic>
#include <cstdio>
#include <fstream>
#include <iostream>
#include <mutex>
#include <sstream>
#include <string>
#include <thread>
static std::istringstream numbers("1 2 3 4"), words("some words of a text"), lines("a line\nanother\n");
static std::istringstream guarded("5 6 7 8");
static std::istringstream letters("abcdefgh"), mine("10 2.5 word x\nrest of a line that is long\nmore\nlast 77 end\n"
                                 "a line for a text that has room\na line for a text that has no room\nend");
static std::istringstream blank("  ");
static std::stringstream both, empty, passed, gone;
static std::atomic<int> has_read;
static std::ifstream file("/dev/zero");
static std::mutex m;
static int number, kept, last, sum;
static struct {
    double real, beside;
} pair;
static char letter, block[8], text[16], part_of_it[8];
static std::string word, line, roomy = "a text that has room for a line, and more than that", narrow;
static volatile size_t seen;

static void reads() {
    int k;
    std::string s;
    char c, part[8];
    numbers >> k;               // RACE numbers
    words >> s;                 // RACE words
    std::getline(lines, s);     // RACE lines
    letters.get(c);             // RACE letters
    file.read(part, 4);         // RACE file
    both << "hello ";           // RACE both
    empty.peek();               // RACE empty
    mine >> number;             // RACE number
    mine >> pair.real;          // RACE real
    mine >> word;               // RACE word
    mine >> letter;             // RACE letter
    mine.ignore(1);
    std::getline(mine, line);   // RACE line
    mine.getline(text, 16);     // RACE text
    mine.read(block, 4);        // RACE block
    std::getline(mine, s);
    std::getline(mine, roomy);  // RACE roomy
    std::getline(mine, narrow); // RACE narrow
    mine >> part_of_it;         // RACE part
    blank >> kept;
    passed << "hello ";         // RACE passed
    gone.get(c);                // RACE gone
    has_read.store(1, std::memory_order_relaxed);
    std::cin >> s;
    std::lock_guard<std::mutex> l(m);
    guarded >> last;
}

static void also_reads() {
    short k;
    std::string s;
    char part[8];
    numbers >> k;                           // RACE numbers
    words.ignore(2);                        // RACE words
    lines.getline(part, 8);                 // RACE lines
    seen = (size_t)letters.peek();          // RACE letters
    seen = (size_t)file.get();              // RACE file
    both >> s;                              // RACE both
    empty << 5;                             // RACE empty
    seen = (size_t)number;                  // RACE number
    seen = (size_t)((char *)&pair.real)[7]; // RACE real
    seen = (size_t)pair.beside;
    seen = word.size();                     // RACE word
    seen = (size_t)letter;                  // RACE letter
    seen = line.size();                     // RACE line
    seen = (size_t)text[4];                 // RACE text
    seen = (size_t)roomy.data()[2];         // RACE roomy
    seen = (size_t)narrow.data();           // RACE narrow
    seen = (size_t)block[3];                // RACE block
    seen = (size_t)part_of_it[3];           // RACE part
    seen = (size_t)(block[4] + text[5] + kept);
    while (!has_read.load(std::memory_order_relaxed)) {}
    passed >> s; // RACE passed
    gone.peek(); // RACE gone
    std::cin >> s;
    std::lock_guard<std::mutex> l(m);
    guarded >> sum;
    sum += last;
}

int main() {
    std::thread a(reads), b(also_reads);
    a.join(), b.join();
    std::printf("%d %d %d %s %s %s\n", number, kept, sum % 2, word.c_str(), line.c_str(), text);
}
