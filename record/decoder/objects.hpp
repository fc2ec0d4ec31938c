// What lies where, as the records go by: blocks and stacks that live, in these the frames of calls and the variables
// that each thread has, symbols, and the rest in pieces of a megabyte.
#pragma once
#include <map>
#include <memory>
#include <mutex>
#include <string>
#include <unordered_map>
#include <vector>
#include "places.hpp"

namespace objects {

// A thing's number. Blocks and stacks are counted in the order in which they began, which is the same whenever the
// records go by; what lasts, as symbols do, is counted from LASTING on, in the order in which it was first met.
using Thing = u32;
constexpr Thing LASTING = 1u << 31, NOTHING = ~0u;

struct Where {
    Thing thing;
    u64 place;
};

// One activation of a function. Its places are counted from BEFORE_END bytes before the frame's end on.
struct Activation {
    u64 body;
    locals::Frame frame;
    u16 thread;
};
constexpr u64 BEFORE_END = 1ull << 40;

class Objects {
    // A block or stack that lives.
    struct Living {
        u64 size;
        Thing thing;
        u64 end(u64 start) const { return start + (size ? size : 1); }
    };
    // A part of a frame, or the variables that a thread has. An address is at a place of `address - base`.
    struct Piece {
        u64 start, base;
        Thing thing;
    };

public:
    // What lies where at a place of the recording.
    class Ground {
        friend class Objects;
        std::map<u64, Living> living;
        // By their ends, since the frames of the calls of one function end at one address.
        std::map<u64, Piece> inside;
        Thing next = 0;
    };
    explicit Objects(places::Modules &modules)
        : modules(modules), known(CACHE), pages(WHOLE_PAGES), recent(WHOLE_PAGES), ages(PAGES) {}
    // The same things, from a place of the recording on. Others may go over other records at the same time.
    Objects(const Objects &other, const Ground &ground) : Objects(other.modules) {
        all = other.all;
        on = ground;
    }
    const Ground &ground() const { return on; }
    // Before the records go by again.
    void restart();
    // A block that was given back keeps its name until its memory is given out again.
    void begin_block(const record &one);
    void begin_stack(const record &one);
    // Memory of an activation of a function, or more of it. The variables that a thread has are below `answer` of its
    // stack. With raw names there are neither.
    void begin_frame(const record &one);
    void begin_own_variables(const record &stack);
    void resize(u64 start, u64 size);
    // The living block that starts at an address, and its length; or nothing.
    Where living_at(u64 start) const;
    // The block or stack that lives at an address; or nothing.
    Where living_with(u64 address) const;
    Where at(u64 address) {
        u64 page = address >> PAGE_BITS;
        const Whole &whole = pages[page % WHOLE_PAGES];
        u32 age = ages[page % PAGES];
        if (whole.page != page || whole.age != age) return found_at(address);
        if (whole.thing != NOTHING) return {whole.thing, address - whole.start};
        const Found &last = known[place_of(address)];
        return last.address == address && last.age == age ? last.where : found_at(address);
    }
    // What is no memory: number `number` of a kind.
    Thing named(int kind, u64 number);
    // The name of a thing and an offset in bytes.
    std::string name(Thing thing, u64 place) const;
    // The name of `size` bytes at a place as the source has it. Empty if it is not known.
    std::string source_name(Thing thing, u64 place, u64 size);
    size_t blocks() const { return all->names.size(); }
    // Whether some thing is an activation of a function.
    bool has_activations() const { return !all->activations.empty(); }
    // The code of the function whose activation a thing is, and its thread; nothing for another thing.
    const Activation *activation_of(Thing thing) const;
    // The first write of each place of code that allocates, by the thread that allocated: it may be that of a
    // constructor.
    using Writes = std::vector<places::Key>;
    void see_write(Thing thing, const record &one, Writes &first) const;
    // Adds what was met in a part of the recording, one part after another.
    void keep_writes(const Writes &first);
    // Where in its function a place of a frame was used, and how often: the first places of code, and others.
    struct Used {
        locals::Uses first;
        std::unordered_map<u64, u64> others;
        void add(u64 pc);
    };
    using Uses = std::map<std::pair<Thing, u64>, Used>;
    void keep_uses(const Uses &more);
    // Numbers the blocks and frames that are printed.
    void number(const std::vector<Thing> &printed);

private:
    // A block is the how many-th of its place; a stack is that of a thread, and has no place. A frame's `site` is the
    // number of its activation.
    struct Name {
        u32 place, number, site;
        u16 thread;
        u64 size;
    };
    // Where blocks were allocated, where the first of them was written first, and of which type they are, if that was
    // looked for. The label is what the type is called, with a mark if it is a guess.
    struct Site {
        places::Key key, written;
        bool was_looked_for = false, has_open_end = false;
        std::optional<Dwarf_Die> type;
        std::string label;
    };
    // The result of the last search for an address, while nothing began or changed in its page.
    struct Found {
        u64 address = ~0ull;
        u32 age = 0;
        Where where{};
    };
    // A page that one living block or stack has whole and alone, while nothing began or changed in it.
    struct Whole {
        u64 page = ~0ull, start = 0;
        u32 age = 0;
        Thing thing = NOTHING;
    };
    // A part of a page in which an address was found.
    struct Recent {
        u64 start = 0, size = 0, base = 0;
        Thing thing = NOTHING;
        bool has(u64 address) const { return address - start < size; }
        bool meets(u64 other, u64 end) const { return other < start + size && start < end; }
    };
    // The two parts that were found last, while nothing began or changed in the page but these parts.
    struct Recents {
        Recent last, other;
        void put(const Recent &one) { other = last, last = one; }
        void cut(u64 start, u64 end);
    };
    static constexpr size_t CACHE = 1 << 16, PAGES = 1 << 16, WHOLE_PAGES = 1 << 12;
    static constexpr int PAGE_BITS = 12;
    static constexpr u32 STACK_PLACE = ~0u, FRAME_PLACE = ~0u - 1, OWN_PLACE = ~0u - 2;
    void begin(u64 start, u64 size);
    void begin_inside(u64 end, const Piece &piece);
    void cut_inside(u64 start, u64 end);
    Thing same_frame(const record &one) const;
    void changed(u64 start, u64 end);
    void changed_inside(u64 end, const Piece &piece);
    Where found_at(u64 address);
    Where searched(u64 address);
    Where lasting_at(u64 address);
    void find_whole(u64 page, Whole &to) const;
    // Words beside each other have places beside each other.
    static size_t place_of(u64 address) { return ((address >> 3) ^ (address << 13) ^ (address >> 19)) % CACHE; }
    u32 site_at(const places::Key &key);
    const Site &site_of_block(const Name &block);
    std::string base_name(Thing thing);
    std::string label_of(const Name &block);
    std::string number_of(Thing thing) const;
    std::string block_name(Thing thing, u64 place, u64 size);
    std::string frame_name(Thing thing, u64 place, u64 size);
    std::string own_name(const Name &of, u64 place, u64 size);
    Thing lasting(const std::string &name, u64 symbol = 0);
    // What is known of all things, for each who goes over the records.
    struct Registry {
        std::vector<Activation> activations;
        std::map<std::pair<Thing, u64>, locals::Uses> uses;
        // What follows the name of a block or frame that is printed.
        std::unordered_map<Thing, std::string> numbers;
        std::vector<Name> names;
        std::vector<std::string> place_names, lasting_names;
        // Where the symbols are that last; 0 for other things.
        std::vector<u64> lasting_symbols;
        std::vector<u32> given;
        std::unordered_map<std::string, u32> place_numbers;
        std::unordered_map<places::Key, u32, places::KeyHash> site_of;
        std::vector<Site> sites;
        std::vector<u32> place_of_site;
        std::unordered_map<u64, Thing> symbols, pieces, others;
        // Held by who looks up or adds a thing that lasts.
        std::mutex lasting;
    };
    places::Modules &modules;
    std::shared_ptr<Registry> all = std::make_shared<Registry>();
    Ground on;
    std::vector<Found> known;
    std::vector<Whole> pages;
    std::vector<Recents> recent;
    std::vector<u32> ages;
};

}
