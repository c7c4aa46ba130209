// The same work with a std::map: `map MODE ITEMS ROUNDS`, the modes being those of the program beside it. A key is the
// octets of a name, a kind and a type in two octets; an entry holds the observations of its key. A question makes the
// same look-ups as a cache: the records, the alias, that there is no such data, and a name error at the name and at
// each name above it.
#include <chrono>
#include <cstdint>
#include <cstdio>
#include <cstdlib>
#include <cstring>
#include <map>
#include <string>
#include <vector>

struct Observation {
    std::string name;
    std::vector<std::string> rdatas;
    uint64_t stamp;
    uint32_t life;
    uint16_t type;
    uint8_t kind, rank;
    uint64_t expires() const { return stamp + life; }
};

using Cache = std::map<std::string, std::vector<Observation>>;

struct Shown {
    const Observation *observation;
    uint32_t ttl;
};

// The octets of the name w and seven digits, below example.com.
static std::string name_of(uint32_t number) {
    char label[16];
    snprintf(label, sizeof label, "w%07u", number);
    std::string name("\x08");
    name += label;
    name.append("\x07" "example" "\x03" "com", 12);
    name.push_back('\0');
    return name;
}

static std::string key_of(const std::string &name, uint8_t kind, uint16_t type) {
    std::string key;
    key.reserve(name.size() + 3);
    key = name;
    key.push_back(char(kind));
    key.push_back(char(type >> 8));
    key.push_back(char(type & 255));
    return key;
}

static Observation observation_of(uint32_t number) {
    Observation o;
    o.name = name_of(number);
    o.rdatas.emplace_back(reinterpret_cast<const char *>(&number), 4);
    o.stamp = 100;
    o.life = number % 1000 == 0 ? 100 : 86400;
    o.type = 1;
    o.kind = 3;
    o.rank = 3;
    return o;
}

static void take(Cache &cache, Observation &&o) {
    auto &front = cache[key_of(o.name, o.kind, o.type)];
    for (const auto &held : front)
        if (held.rank == o.rank && held.stamp == o.stamp && held.rdatas == o.rdatas) return;
    if (front.empty()) front.reserve(1);
    front.push_back(std::move(o));
}

static const Observation *live(const Cache &cache, const std::string &key, uint64_t moment) {
    auto at = cache.find(key);
    if (at == cache.end()) return nullptr;
    for (const auto &o : at->second)
        if (o.expires() > moment) return &o;
    return nullptr;
}

static bool answer(const Cache &cache, const std::string &name, uint16_t type, uint64_t moment, Shown &shown) {
    const Observation *records = live(cache, key_of(name, 3, type), moment);
    const Observation *alias = live(cache, key_of(name, 3, 5), moment);
    const Observation *none = live(cache, key_of(name, 2, type), moment);
    const Observation *denial = nullptr;
    for (size_t at = 0;; at += 1 + uint8_t(name[at])) {
        const Observation *here = live(cache, key_of(name.substr(at), 1, 0), moment);
        if (here && !denial) denial = here;
        if (name[at] == 0) break;
    }
    const Observation *best = records ? records : alias ? alias : none ? none : denial;
    if (!best) return false;
    shown.observation = best;
    shown.ttl = uint32_t(best->expires() - moment);
    return true;
}

static void purge(Cache &cache, uint64_t moment) {
    for (auto at = cache.begin(); at != cache.end();) {
        auto &front = at->second;
        for (size_t i = 0; i < front.size();)
            if (front[i].expires() <= moment) front.erase(front.begin() + long(i));
            else i++;
        at = front.empty() ? cache.erase(at) : ++at;
    }
}

int main(int argc, char **argv) {
    if (argc < 4) return 2;
    std::string mode = argv[1];
    uint32_t items = uint32_t(atoll(argv[2])), rounds = uint32_t(atoll(argv[3]));
    if (mode == "make") {
        size_t sum = 0;
        for (uint32_t i = 0; i < items; i++) sum += observation_of(i).name.size();
        printf("%zu\n", sum);
        return 0;
    }
    Cache cache;
    for (uint32_t i = 0; i < items; i++) take(cache, observation_of(i));
    if (mode == "ask" || mode == "answer") {
        for (uint32_t round = 0; round < rounds; round++) {
            uint32_t at = 0, found = 0;
            size_t sum = 0;
            for (uint32_t i = 0; i < items; i++) {
                at = (at + 7919) % (items ? items : 1);
                std::string name = name_of(at);
                sum += name.size();
                Shown shown;
                if (mode == "answer" && answer(cache, name, 1, 150, shown)) found++;
            }
            printf("%u %zu\n", found, sum);
        }
    }
    if (mode == "purge" || mode == "all") {
        auto started = std::chrono::steady_clock::now();
        purge(cache, mode == "all" ? 86500 : 200);
        auto took = std::chrono::steady_clock::now() - started;
        printf("%lld\n", (long long)std::chrono::duration_cast<std::chrono::microseconds>(took).count());
    }
    return 0;
}
