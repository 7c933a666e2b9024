// What the tests share: a count of what held, and rooms that end at a page nobody may touch.
#ifndef FRAMECHECK_CHECK_HPP
#define FRAMECHECK_CHECK_HPP

#include <cstdint>
#include <cstdio>
#include <cstdlib>
#include <cstring>
#include <string>
#include <sys/mman.h>
#include <unistd.h>

namespace test {

inline int passed = 0, failed = 0;

inline void hold(bool ok, const char *what, const char *file, int line) {
    if (ok) passed++;
    else {
        failed++;
        std::printf("%s:%d: does not hold: %s\n", file, line, what);
    }
}

#define HOLD(...) ::test::hold((__VA_ARGS__), #__VA_ARGS__, __FILE__, __LINE__)

inline int finish() {
    std::printf("%d passed, %d failed\n", passed, failed);
    return failed == 0 ? 0 : 1;
}

// `size` bytes between two pages that may not be touched, at the end (or the start) of what may: a read or write beyond
// ends the program, also from code that no sanitizer has seen.
class Fenced {
  public:
    explicit Fenced(std::size_t size, bool at_end = true) : size_(size) {
        const std::size_t page = static_cast<std::size_t>(sysconf(_SC_PAGESIZE)), inner = (size + page - 1) / page * page;
        whole_ = inner + 2 * page;
        base_ = static_cast<std::uint8_t *>(mmap(nullptr, whole_, PROT_NONE, MAP_PRIVATE | MAP_ANONYMOUS, -1, 0));
        if (base_ == MAP_FAILED) std::perror("mmap"), std::abort();
        if (inner > 0 && mprotect(base_ + page, inner, PROT_READ | PROT_WRITE) != 0) std::perror("mprotect"), std::abort();
        data_ = at_end ? base_ + page + inner - size : base_ + page;
    }
    Fenced(const Fenced &) = delete;
    Fenced &operator=(const Fenced &) = delete;
    ~Fenced() { munmap(base_, whole_); }

    std::uint8_t *data() { return data_; }
    std::size_t size() const { return size_; }

  private:
    std::uint8_t *base_, *data_;
    std::size_t size_, whole_;
};

} // namespace test

#endif
