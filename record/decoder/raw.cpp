#include "raw.hpp"
#include <algorithm>
#include <cstdlib>
#include <fcntl.h>
#include <new>
#include <sys/mman.h>
#include <sys/stat.h>
#include <unistd.h>

namespace raw {

static size_t fitting(u64 at, u64 count, size_t each, size_t size) {
    return at > size ? 0 : static_cast<size_t>(std::min<u64>(count, (size - at) / each));
}

File::File(const std::string &path) : name(path) {
    int file = open(path.c_str(), O_RDONLY | O_CLOEXEC);
    struct stat about;
    if (file < 0 || fstat(file, &about)) throw Wrong(path + ": can't be read");
    size_t size = static_cast<size_t>(about.st_size);
    if (size < sizeof(head)) throw Wrong(path + ": is no recording");
    void *there = mmap(nullptr, size, PROT_READ, MAP_SHARED, file, 0);
    close(file);
    if (there == MAP_FAILED) throw Wrong(path + ": can't be mapped");
    madvise(there, size, MADV_SEQUENTIAL);
    bytes = static_cast<const char *>(there);
    if (top().magic != MAGIC || top().words_at % 8 || top().stacks_at % 8) throw Wrong(path + ": is no recording");
    used = fitting(top().words_at, top().used, sizeof(u64), size);
    nodes = fitting(top().stacks_at, std::min(top().stacks, top().stack_room), sizeof(node), size);
    first = reinterpret_cast<const u64 *>(bytes + (used ? top().words_at : 0));
    first_node = reinterpret_cast<const node *>(bytes + (nodes ? top().stacks_at : 0));
}

void File::forget(u64 from, u64 to) const {
    const size_t page = static_cast<size_t>(sysconf(_SC_PAGESIZE));
    size_t start = (reinterpret_cast<size_t>(first + from) + page - 1) & ~(page - 1);
    size_t end = reinterpret_cast<size_t>(first + to) & ~(page - 1);
    if (start < end) madvise(reinterpret_cast<void *>(start), end - start, MADV_DONTNEED);
}

const node &File::call(u32 number) const {
    static const node none{};
    return number < nodes ? first_node[number] : none;
}

// The memory of slots that no word has stays untouched.
Records::Records(const File &file)
    : file(file), reader(static_cast<struct reader *>(calloc(1, sizeof(struct reader))), free) {
    if (!reader) throw std::bad_alloc();
    reader->words = file.first_word();
    reader->end = stop = file.words();
}

Records::Records(const File &file, const Start &start, u64 end) : Records(file) {
    reader->next = passed = start.word;
    reader->tick = start.tick;
    reader->thread = start.thread;
    for (auto &form : start.forms) reader->form[form.first] = form.second;
    stop = std::min(end, stop);
}

Start Records::start() const {
    Start found{reader->next, reader->tick, reader->thread, {}};
    for (u32 slot = FIRST_SLOT; slot < SLOTS; slot++)
        if (reader->form[slot].done) found.forms.emplace_back(slot, reader->form[slot]);
    return found;
}

bool Records::next_other() {
    now = &reader->now;
    while (reader->next < stop && read_record(reader.get())) {
        if (reader->place >= passed + AT_ONCE) file.forget(passed, reader->place), passed = reader->place;
        if (reader->now.kind != VOID) return true;
    }
    if (!reader->is_faulty) {
        file.forget(passed, reader->next);
        return false;
    }
    throw Wrong(file.path() + ": word " + std::to_string(reader->place) + " of the records is damaged");
}

}
