// The library in C++: an answer that owns its text, and the sketch of a square judged before and behind its diagonal.
#include <cstdint>
#include <cstdlib>
#include <iostream>
#include <memory>
#include <new>
#include <string>
#include <string_view>

#include "sketch.h"

struct Answer {
    sketch_status status;
    std::string text;
};

// Throws std::bad_alloc where sketch_run gave no text. If memory ran out within the call, it answers SKETCH_NO_MEMORY or
// SKETCH_WRITE_FAULT: look at the status.
Answer ask(const std::string &command, std::string_view input) {
    char *text = nullptr;
    std::size_t size = 0;
    const auto status = static_cast<sketch_status>(sketch_run(command.c_str(), input.data(), input.size(), &text, &size));
    const std::unique_ptr<char, decltype(&std::free)> owned(text, &std::free);
    if (text == nullptr) throw std::bad_alloc();
    return {status, std::string(text, size)};
}

int main() {
    const std::string square =
        "sketch 1\npoint A 0 0\npoint B 4 0\npoint C 4 4\npoint D 0 4\n"
        "distance A B 4\ndistance B C 4\ndistance C D 4\ndistance D A 4\n";
    const auto first_line = [](const Answer &answer) { return answer.text.substr(0, answer.text.find('\n')); };
    std::cout << first_line(ask("check", square + "end\n")) << '\n';
    std::cout << first_line(ask("check", square + "distance A C 5.657\nend\n")) << '\n';
    const auto refused = ask("check", square);
    std::cout << refused.status << ' ' << refused.text;
    return refused.status == SKETCH_REFUSED ? 0 : 1;
}
