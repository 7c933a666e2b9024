// Loads the worked tetrahedron and says its six-volume; with other.cpp, shows that the header stands in two files of a program.
#include "framecheck.hpp"

#include <cstdio>

framecheck::Answers ask_elsewhere(const char *stream);

int main() {
    framecheck::Building building;
    building.load("010000\n02000000000000000000000000\n02000003E80000000000000000\n0200000000000003E800000000\n"
                  "020000000000000000000003E8\n030000000200010000\n030000000100030000\n030000000300020000\n030001000200030001\n04\n");
    const bool ok = building.report() && building.report()->six_volume == 1000000000 && ask_elsewhere("04").lines.size() == 1;
    std::printf("%d passed, %d failed\n", ok ? 1 : 0, ok ? 0 : 1);
    return ok ? 0 : 1;
}
