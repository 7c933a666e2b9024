#include "framecheck.hpp"

framecheck::Answers ask_elsewhere(const char *stream) { return framecheck::answer_all(stream); }
