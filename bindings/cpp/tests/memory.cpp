// Edits for which memory runs out tell how many were done, and these stand alone. Needs the
// linker's --wrap of malloc, calloc and realloc, which reaches the library and nothing of C++.
#include <octofix.hpp>

#include <cstdio>

namespace {

bool is_out = false; // whether memory is

} // namespace

extern "C" {
void *__real_malloc(std::size_t size);
void *__real_calloc(std::size_t count, std::size_t size);
void *__real_realloc(void *old, std::size_t size);
void *__wrap_malloc(std::size_t size) { return is_out ? nullptr : __real_malloc(size); }
void *__wrap_calloc(std::size_t count, std::size_t size) {
    return is_out ? nullptr : __real_calloc(count, size);
}
void *__wrap_realloc(void *old, std::size_t size) {
    return is_out ? nullptr : __real_realloc(old, size);
}
}

int main() {
    octofix::map world(0.1);
    const octofix::point here = octofix::metres(0.05, 0.05, 0.05);
    world.set(here, 1);
    std::vector<octofix::edit> edits = {{here, octofix::event::set, 2}};
    for (int i = 0; i < 1000; i++) // one voxel in each of 1,000 blocks of 3.2 m
        edits.push_back({octofix::metres(-3.2 * i - 1, 1000, 1000), octofix::event::set, i});
    is_out = true;
    std::size_t done = 0;
    try {
        world.edit_all(edits);
    } catch (const octofix::edits_out_of_memory &error) {
        done = error.done();
    }
    is_out = false;
    std::size_t known = 1; // the voxel that stood, and is the first to be edited
    while (known < edits.size() && world.get(edits[known].at)) known++;
    const bool holds = done == known && done < edits.size() && world.get(here) == 2 &&
                       world.leaves().size() == done;
    is_out = true;
    bool is_told = false; // where it has no number, it is as ever
    try {
        octofix::map other(0.1);
    } catch (const octofix::edits_out_of_memory &) {
    } catch (const std::bad_alloc &) {
        is_told = true;
    }
    is_out = false;
    world.edit_all(edits);
    std::printf("memory: %zu of %zu edits were done\n", done, edits.size());
    return holds && is_told && world.leaves().size() == edits.size() ? 0 : 1;
}
