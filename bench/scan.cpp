// A plain scan over packed codes, beside which the program is measured. For each query it prints the microseconds and the hits
// within a radius, found by looking at every code and sorted by distance and then by key. Of these it keeps the NEAREST first ones,
// in a heap; 0 keeps all.
//
// usage: scan WORDS CODES QUERIES RADIUS NEAREST < codes and then queries, each WORDS words of 64 bits, the top byte first

#include <algorithm>
#include <chrono>
#include <cstdint>
#include <cstdio>
#include <cstdlib>
#include <utility>
#include <vector>

static std::vector<uint64_t> read_words(size_t number) {
    std::vector<unsigned char> bytes(number * 8);
    if (fread(bytes.data(), 1, bytes.size(), stdin) != bytes.size()) exit(1);
    std::vector<uint64_t> words(number);
    for (size_t at = 0; at < bytes.size(); at++) words[at / 8] = words[at / 8] << 8 | bytes[at];
    return words;
}

template <size_t WORDS>
static size_t scan(const uint64_t *codes, size_t number, const uint64_t *query, unsigned radius, size_t nearest,
                   std::vector<std::pair<uint32_t, uint64_t>> &hits) {
    hits.clear();
    for (size_t key = 0; key < number; key++) {
        unsigned distance = 0;
        for (size_t word = 0; word < WORDS; word++) distance += __builtin_popcountll(codes[key * WORDS + word] ^ query[word]);
        if (distance > radius) continue;
        hits.push_back({distance, key});
        if (!nearest) continue;
        std::push_heap(hits.begin(), hits.end());
        if (hits.size() <= nearest) continue;
        std::pop_heap(hits.begin(), hits.end());
        hits.pop_back();
        // a later code at the greatest distance kept comes after it, by its key
        radius = hits.front().first ? hits.front().first - 1 : 0;
    }
    std::sort(hits.begin(), hits.end());
    return hits.size();
}

template <size_t WORDS>
static void run(size_t number, size_t queries, unsigned radius, size_t nearest) {
    auto codes = read_words(number * WORDS), asked = read_words(queries * WORDS);
    std::vector<std::pair<uint32_t, uint64_t>> hits;
    for (size_t at = 0; at < queries; at++) {
        auto begun = std::chrono::steady_clock::now();
        size_t found = scan<WORDS>(codes.data(), number, &asked[at * WORDS], radius, nearest, hits);
        std::chrono::duration<double, std::micro> took = std::chrono::steady_clock::now() - begun;
        printf("%.1f %zu\n", took.count(), found);
    }
}

int main(int count, char **words) {
    if (count != 6) return 2;
    size_t number = strtoul(words[2], nullptr, 10), queries = strtoul(words[3], nullptr, 10);
    size_t nearest = strtoul(words[5], nullptr, 10);
    unsigned radius = strtoul(words[4], nullptr, 10);
    switch (atoi(words[1])) {
        case 1: run<1>(number, queries, radius, nearest); break;
        case 2: run<2>(number, queries, radius, nearest); break;
        case 3: run<3>(number, queries, radius, nearest); break;
        case 4: run<4>(number, queries, radius, nearest); break;
        default: return 2;
    }
}
