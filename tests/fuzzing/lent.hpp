// Memory that is lent to a call: it lies against a page that faults when it is touched, and what lies on its other side holds a pattern.
#pragma once

#include <sys/mman.h>

#include <cstdint>
#include <cstdio>
#include <cstdlib>
#include <cstring>

// Where the page lies that faults: past the end of what is lent, or before its start.
enum class Guard { end, start };

class Lent {
    static constexpr size_t page = 4096;
    static constexpr size_t most_pages = 5;

    Guard guard;
    size_t room_size;
    uint8_t *room;
    uint8_t *at;
    size_t size = 0;

    static const uint8_t *pattern() {
        static const uint8_t *made = [] {
            static uint8_t bytes[most_pages * page];
            for (size_t k = 0; k < sizeof bytes; k++) bytes[k] = uint8_t(k * 167 + (k >> 8) + 91);
            return bytes;
        }();
        return made;
    }

public:
    static constexpr size_t pages_for(size_t bytes) { return (bytes + page - 1) / page; }

    Lent(Guard guard, size_t pages) : guard(guard), room_size(pages * page) {
        void *all = mmap(nullptr, room_size + 2 * page, PROT_NONE, MAP_PRIVATE | MAP_ANONYMOUS, -1, 0);
        if (pages > most_pages || all == MAP_FAILED || mprotect(static_cast<uint8_t *>(all) + page, room_size, PROT_READ | PROT_WRITE) != 0) {
            std::perror("lent memory");
            std::exit(2);
        }
        room = static_cast<uint8_t *>(all) + page;
        at = room;
        std::memcpy(room, pattern(), room_size);
    }
    Lent(const Lent &) = delete;
    Lent &operator=(const Lent &) = delete;
    ~Lent() { munmap(room - page, room_size + 2 * page); }

    // Lends a copy of the given bytes, which are no more than fit.
    uint8_t *lend(const void *bytes, size_t count) {
        std::memcpy(at, pattern() + (at - room), size);
        size = count;
        at = guard == Guard::end ? room + room_size - size : room;
        if (size) std::memcpy(at, bytes, size);
        return at;
    }

    uint8_t *lent() const { return at; }

    // Whether what was lent now holds these bytes.
    bool holds(const void *bytes) const { return size == 0 || std::memcmp(at, bytes, size) == 0; }

    // Whether all else on these pages is as it was.
    bool rest_is_kept() const {
        const uint8_t *end = at + size;
        return std::memcmp(room, pattern(), at - room) == 0 && std::memcmp(end, pattern() + (end - room), room + room_size - end) == 0;
    }
};
