// octofix-ot: reads a .ot file of the OctoMap library, and writes its map as a snapshot.
//
//     octofix-ot <MAP.ot >MAP.snap
//
// The tools of octofix call it for such files, where it is on the path. Ends with 1, and one line
// on standard error, where it can't read or write. Needs liboctomap:
//
//     c++ -O2 -std=c++17 octofix_ot.cpp $(pkg-config --cflags --libs octofix octomap) -o octofix-ot
#include <octofix_octomap.hpp>

#include <cstdio>
#include <exception>
#include <iostream>

int main() {
    try {
        const octofix::bytes snapshot = octofix::read_ot(std::cin).snapshot();
        const std::size_t written = std::fwrite(snapshot.data(), 1, snapshot.size(), stdout);
        if (written == snapshot.size() && std::fflush(stdout) == 0) return 0;
        std::perror("octofix-ot: it can't be written");
    } catch (const std::exception &error) {
        std::cerr << "octofix-ot: " << error.what() << '\n';
    }
    return 1;
}
