// A host in C++: a site as a class that owns it, and the session at the head of the README.
#include "cotpad.h"

#include <cstdio>
#include <cstdlib>
#include <stdexcept>
#include <string>
#include <utility>
#include <vector>

namespace {

void must(cotpad_status status) {
    if (status != COTPAD_OK) throw std::runtime_error("status " + std::to_string(status));
}

class Site {
  public:
    explicit Site(uint32_t number) { must(cotpad_open(&site_, number)); }
    ~Site() { cotpad_close(&site_); }
    Site(const Site &) = delete;
    Site &operator=(const Site &) = delete;

    void insert(uint32_t place, const std::string &text) {
        uint32_t made = 0;
        must(cotpad_insert_text(&site_, place, reinterpret_cast<const uint8_t *>(text.data()), text.size(), &made));
    }

    void remove(uint32_t place) { must(cotpad_delete(&site_, place)); }

    void undo(uint32_t author, uint32_t number) { must(cotpad_undo(&site_, author, number)); }

    void receive(const std::vector<uint8_t> &frame) {
        cotpad_verdict verdict = {};
        must(cotpad_receive(&site_, frame.data(), frame.size(), &verdict));
        if (verdict.kind != COTPAD_VERDICT_INTEGRATED && verdict.kind != COTPAD_VERDICT_REPEAT)
            throw std::runtime_error("verdict " + std::to_string(verdict.kind));
    }

    // The frames from this index of the history on.
    std::vector<std::vector<uint8_t>> frames(uint32_t since) {
        std::vector<std::vector<uint8_t>> all;
        for (uint32_t i = since; i < operations(); i++)
            all.push_back(filled([&](uint8_t *out, size_t room, size_t *needed) { return cotpad_frame(&site_, i, out, room, needed); }));
        return all;
    }

    std::string text() {
        auto bytes = filled([&](uint8_t *out, size_t room, size_t *needed) { return cotpad_text(&site_, out, room, needed); });
        return std::string(bytes.begin(), bytes.end());
    }

    uint32_t operations() { return cotpad_operations(&site_); }

  private:
    template <typename Call> static std::vector<uint8_t> filled(Call call) {
        std::vector<uint8_t> bytes(16);
        size_t needed = 0;
        cotpad_status status = call(bytes.data(), bytes.size(), &needed);
        if (status == COTPAD_TOO_SHORT) {
            bytes.resize(needed);
            status = call(bytes.data(), bytes.size(), &needed);
        }
        must(status);
        bytes.resize(needed);
        return bytes;
    }

    cotpad_site site_ = COTPAD_SITE_EMPTY;
};

// Sends to each site what the others have; what a site has already is a repeat.
template <typename Sites> void sync(Sites &sites) {
    for (auto &from : sites)
        for (const auto &frame : from.frames(0))
            for (auto &to : sites) to.receive(frame);
}

void expect(Site (&sites)[3], const char *text) {
    sync(sites);
    for (auto &site : sites)
        if (site.text() != text) throw std::runtime_error("not " + std::string(text) + ": " + site.text());
}

}  // namespace

int main() {
    try {
        if (cotpad_version() != COTPAD_VERSION) return 2;
        Site sites[] = {Site(0), Site(1), Site(2)};
        sites[0].insert(0, "tea");
        expect(sites, "tea");
        sites[0].remove(0);
        sites[1].remove(1);
        sites[1].insert(1, "o");
        sites[2].insert(3, "!");
        expect(sites, "oa!");
        sites[0].undo(1, 1);
        sites[1].undo(0, 2);
        sites[2].undo(1, 2);
        expect(sites, "tea!");
        std::puts("a host in C++ shows tea!");
    } catch (const std::exception &why) {
        std::fprintf(stderr, "%s\n", why.what());
        return 1;
    }
}
