// Output by the standard streams from several threads is no race.
#include <cstdio>
#include <iostream>
#include <string>
#include <thread>
#include <vector>
int main() {
    std::vector<std::thread> t;
    std::string text = "some text that all threads read, longer than sixteen bytes";
    int shared = 0;
    for (int k = 0; k < 3; k++)
        t.emplace_back([k, &text, &shared] {
            std::cout << (text + "\n") << std::flush;
            std::printf("%s\n", text.c_str());
            std::fputs("line\n", stdout);
            shared = k; // RACE
        });
    for (auto &one : t) one.join();
}
