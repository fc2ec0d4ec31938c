// decoder: the trace of a raw file on standard output, and what record/run reports of it on standard error, as lines
// `fact NAME NUMBER`, `place NAME PLACE`, `loss CAUSE NUMBER`, `lost CAUSE NAME`, and those of deadlocks::print. With
// --places it answers where places of code are: see answer_places. With --by-value it searches a trace: see search.
#include <cstdio>
#include <cstdlib>
#include <getopt.h>
#include <iostream>
#include "by_value.hpp"
#include "trace.hpp"

namespace {

const char *const USAGE =
    "decoder [--max N] [--from N] [--frames N] [--no-free] [--raw-names] [--only FILE].. "
    "[--trust LIB].. [--cause CAUSE] [--killed] "
    "[--numbers FILE] [--all] [--ordered FILE] [--values FILE] [--workers N] RAW | decoder --places RAW | "
    "decoder --by-value VALUES [--limit NAME=N].. TRACE";

struct Request {
    trace::Options options;
    const char *raw = nullptr, *numbers = nullptr, *values = nullptr;
    bool places = false;
    by_value::Limits limits;
};

bool number_in(const char *text, u64 &to) {
    char *end = nullptr;
    to = strtoull(text, &end, 10);
    return *text && *text != '-' && !*end;
}

// A limit of the search, as NAME=N.
bool read_limit(const std::string &text, by_value::Limits &limits) {
    size_t equals = text.find('=');
    u64 number = 0;
    if (equals == std::string::npos || !number_in(text.c_str() + equals + 1, number)) return false;
    std::string name = text.substr(0, equals);
    if (name == "waits") limits.waits = number;
    else if (name == "steps") limits.steps = number;
    else if (name == "schedules") limits.schedules = number;
    else if (name == "states") limits.states = number;
    else if (name == "short") limits.short_trace = number;
    else if (name == "pairs") limits.pairs = number;
    else if (name == "seconds") limits.seconds = static_cast<double>(number);
    else return false;
    return true;
}

bool read_option(int option, Request &request) {
    u64 number = 0;
    switch (option) {
    case 'm': return number_in(optarg, request.options.most);
    case 'f': return number_in(optarg, request.options.first);
    case 'c':
        if (!number_in(optarg, number)) return false;
        request.options.frames = number;
        return true;
    case 'n': request.options.frees = false; return true;
    case 'o': request.options.only.push_back(optarg); return true;
    case 'e': request.numbers = optarg; return true;
    case 'r': request.options.raw_names = true; return true;
    case 'p': request.places = true; return true;
    case 't': request.options.trusted.push_back(optarg); return true;
    case 'w': request.options.cause = optarg; return true;
    case 'k': request.options.killed = true; return true;
    case 'a': request.options.all = true; return true;
    case 'd': request.options.ordered = optarg; return true;
    case 'v': request.options.values = optarg; return true;
    case 'b': request.values = optarg; return true;
    case 'l': return read_limit(optarg, request.limits);
    case 's':
        if (!number_in(optarg, number)) return false;
        request.options.workers = number;
        return true;
    default: return false;
    }
}

bool read_arguments(int count, char **arguments, Request &request) {
    static const option known[] = {
        {"max", required_argument, nullptr, 'm'},     {"from", required_argument, nullptr, 'f'},
        {"frames", required_argument, nullptr, 'c'},  {"no-free", no_argument, nullptr, 'n'},
        {"only", required_argument, nullptr, 'o'},    {"numbers", required_argument, nullptr, 'e'},
        {"places", no_argument, nullptr, 'p'},        {"raw-names", no_argument, nullptr, 'r'},
        {"trust", required_argument, nullptr, 't'},   {"cause", required_argument, nullptr, 'w'},
        {"killed", no_argument, nullptr, 'k'},        {"ordered", required_argument, nullptr, 'd'},
        {"values", required_argument, nullptr, 'v'},  {"by-value", required_argument, nullptr, 'b'},
        {"limit", required_argument, nullptr, 'l'},   {"all", no_argument, nullptr, 'a'},
        {"workers", required_argument, nullptr, 's'}, {nullptr, 0, nullptr, 0},
    };
    for (int option; (option = getopt_long(count, arguments, "", known, nullptr)) != -1;) {
        if (!read_option(option, request)) return false;
    }
    if (optind + 1 != count) return false;
    request.raw = arguments[optind];
    return true;
}

void print_fact(const char *name, u64 number) {
    fprintf(stderr, "fact %s %llu\n", name, static_cast<unsigned long long>(number));
}

void decode(const Request &request) {
    raw::File file(request.raw);
    FILE *numbers = request.numbers ? fopen(request.numbers, "wb") : nullptr;
    if (request.numbers && !numbers) throw raw::Wrong(std::string(request.numbers) + ": can't be written");
    trace::Trace trace(file, request.options);
    trace::Counts counts = trace.write(stdout, numbers);
    if (!request.options.ordered.empty()) trace.write_ordered();
    if (!request.options.values.empty()) trace.write_values();
    if (fflush(stdout) || ferror(stdout) || (numbers && fclose(numbers)))
        throw raw::Wrong("the trace can't be written");
    print_fact("before", counts.before);
    print_fact("written", counts.written);
    print_fact("left_out", counts.left_out);
    print_fact("too_many_threads", counts.too_many_threads);
    print_fact("threads", counts.threads);
    print_fact("bytes", counts.bytes);
    print_fact("cut_short", counts.cut_short);
    print_fact("no_sections", counts.no_sections);
    print_fact("by_library", counts.by_library);
    print_fact("not_chosen", counts.not_chosen);
    print_fact("stronger", counts.stronger);
    print_fact("ordered", counts.ordered);
    print_fact("ordered_parts", counts.ordered_parts);
    print_fact("polls", counts.polls);
    for (const std::string &place : trace.stronger_places()) fprintf(stderr, "place stronger %s\n", place.c_str());
    trace.losses().print(stderr);
    deadlocks::print(stderr, trace.deadlock());
}

// Reads addresses in hexadecimal, one a line. Answers each with its frames, the innermost first, as lines
// `FUNCTION PLACE`, and then an empty line. A function has no blanks.
void answer_places(const Request &request) {
    raw::File file(request.raw);
    places::Modules modules(file);
    for (std::string line; std::getline(std::cin, line);) {
        for (const places::Frame &frame : modules.frames(strtoull(line.c_str(), nullptr, 16)))
            std::cout << frame.function << ' ' << frame.place << '\n';
        std::cout << std::endl;
    }
}

// Searches a trace for schedules by value. Standard input has pairs of events, two numbers a line: nothing is wanted of
// the pairs of their locations. Prints each schedule as a line `shown A B EVENT..`.
void search(const Request &request) {
    by_value::Trace trace(request.raw, request.values);
    by_value::Search found(trace, request.limits);
    for (int a, b; std::cin >> a >> b;) found.leave_out(a, b);
    found.run();
    found.print(stdout, stderr);
    if (fflush(stdout) || ferror(stdout)) throw raw::Wrong("the schedules can't be written");
}

}

int main(int count, char **arguments) {
    Request request;
    if (!read_arguments(count, arguments, request)) {
        fprintf(stderr, "%s\n", USAGE);
        return 2;
    }
    try {
        if (request.values) search(request);
        else request.places ? answer_places(request) : decode(request);
    } catch (const raw::Wrong &wrong) {
        fprintf(stderr, "record: %s\n", wrong.what());
        return 1;
    }
    return 0;
}
