// The peers: glibc's iconv and ICU, each with one call that converts one whole text.
#pragma once

#include <iconv.h>

#include <memory>
#include <string>

struct UConverter;

// Prints why and ends the program: nothing that is measured may fail.
[[noreturn]] void fail(const std::string &why);

class Iconv {
public:
    Iconv(const std::string &to, const std::string &from);
    ~Iconv();
    Iconv(const Iconv &) = delete;

    // Gives the bytes written.
    size_t convert(const void *in, size_t length, void *out, size_t room);

private:
    std::string name;
    iconv_t state;
};

class Icu {
public:
    explicit Icu(const std::string &name);
    ~Icu();
    Icu(const Icu &) = delete;

    // Gives the units written.
    size_t read(const uint8_t *text, size_t length, char16_t *out, size_t room);

    // One call for each character; gives how many there are.
    size_t step(const uint8_t *text, size_t length, uint32_t *characters);

    // Gives the bytes written.
    size_t write(const char16_t *units, size_t length, uint8_t *out, size_t room);

private:
    std::string name;
    UConverter *state;
    bool forgets; // what the name asks for, at the first reset
};

std::string icu_version();
