// Writes seed streams into a folder: seeds FOLDER [count of random ones]
#include "streams.hpp"

#include <cstdlib>
#include <fstream>

namespace {

void write(const std::string &folder, const std::string &name, const std::string &text) {
    std::ofstream(folder + "/" + name, std::ios::binary) << text;
}

} // namespace

int main(int argc, char **argv) {
    if (argc < 2) return 2;
    const std::string folder = argv[1];
    int i = 0;
    for (const auto &model : streams::ten_buildings()) {
        write(folder, "building_" + std::to_string(++i), streams::load(model));
        if (i <= 4) write(folder, "corrected_" + std::to_string(i), streams::with_corrections(model));
    }
    for (const auto &model : streams::rings_that_fail_early()) write(folder, "edges_" + std::to_string(++i), streams::with_edge_questions(model));
    for (int check : {3, 5, 6}) write(folder, "late_" + std::to_string(check), streams::load(streams::late_rings("", check)));
    const int count = argc > 2 ? std::atoi(argv[2]) : 0;
    for (int seed = 1; seed <= count; seed++) {
        const std::string text = streams::any_stream(static_cast<std::uint64_t>(seed) + 31337);
        if (text.size() < 6000) write(folder, "random_" + std::to_string(seed), text);
    }
}
