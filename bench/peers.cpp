#include "peers.h"

#include <unicode/ucnv.h>
#include <unicode/uversion.h>

#include <cstdio>
#include <cstdlib>
#include <cstring>

void fail(const std::string &why) {
    std::fprintf(stderr, "bench: %s\n", why.c_str());
    std::exit(1);
}

Iconv::Iconv(const std::string &to, const std::string &from)
    : name("iconv " + from + " -> " + to), state(iconv_open(to.c_str(), from.c_str())) {
    if (state == iconv_t(-1)) fail(name + ": not there");
}

Iconv::~Iconv() { iconv_close(state); }

size_t Iconv::convert(const void *in, size_t length, void *out, size_t room) {
    char *from = static_cast<char *>(const_cast<void *>(in)), *to = static_cast<char *>(out);
    const size_t all = room;
    iconv(state, nullptr, nullptr, nullptr, nullptr);
    if (iconv(state, &from, &length, &to, &room) == size_t(-1)) fail(name + ": " + std::strerror(errno));
    // the text's end: a run is closed, G0 goes back to ASCII
    if (iconv(state, nullptr, nullptr, &to, &room) == size_t(-1)) fail(name + ": at the end: " + std::strerror(errno));
    return all - room;
}

// ICU 72 loses the version of "UTF-7,version=1" when the converter is reset, and it is reset at the end of every text. So
// such a converter is never used itself: each text is written by a copy of it.
Icu::Icu(const std::string &wanted) : name("ICU " + wanted), forgets(wanted.find(",version=") != std::string::npos) {
    UErrorCode error = U_ZERO_ERROR;
    state = ucnv_open(wanted.c_str(), &error);
    // a fault stops the conversion: by default ICU would put a substitute
    ucnv_setToUCallBack(state, UCNV_TO_U_CALLBACK_STOP, nullptr, nullptr, nullptr, &error);
    ucnv_setFromUCallBack(state, UCNV_FROM_U_CALLBACK_STOP, nullptr, nullptr, nullptr, &error);
    if (U_FAILURE(error)) fail(name + ": " + u_errorName(error));
}

Icu::~Icu() { ucnv_close(state); }

size_t Icu::read(const uint8_t *text, size_t length, char16_t *out, size_t room) {
    const char *from = reinterpret_cast<const char *>(text), *end = from + length;
    char16_t *to = out;
    UErrorCode error = U_ZERO_ERROR;
    ucnv_resetToUnicode(state);
    ucnv_toUnicode(state, &to, out + room, &from, end, nullptr, true, &error);
    if (U_FAILURE(error)) fail(name + ", reading: " + u_errorName(error));
    return size_t(to - out);
}

size_t Icu::step(const uint8_t *text, size_t length, uint32_t *characters) {
    const char *from = reinterpret_cast<const char *>(text), *end = from + length;
    uint32_t *to = characters;
    UErrorCode error = U_ZERO_ERROR;
    ucnv_resetToUnicode(state);
    for (;;) {
        const UChar32 character = ucnv_getNextUChar(state, &from, end, &error);
        if (error == U_INDEX_OUTOFBOUNDS_ERROR) return size_t(to - characters); // the text's end
        if (U_FAILURE(error)) fail(name + ", stepping: " + u_errorName(error));
        *to++ = uint32_t(character);
    }
}

size_t Icu::write(const char16_t *units, size_t length, uint8_t *out, size_t room) {
    char *to = reinterpret_cast<char *>(out), *start = to;
    const char16_t *from = units;
    UErrorCode error = U_ZERO_ERROR;
    UConverter *writer = forgets ? ucnv_clone(state, &error) : state;
    if (!forgets) ucnv_resetFromUnicode(writer);
    ucnv_fromUnicode(writer, &to, start + room, &from, units + length, nullptr, true, &error);
    if (forgets) ucnv_close(writer);
    if (U_FAILURE(error)) fail(name + ", writing: " + u_errorName(error));
    return size_t(to - start);
}

std::string icu_version() {
    UVersionInfo version;
    char text[U_MAX_VERSION_STRING_LENGTH];
    u_getVersion(version);
    u_versionToString(version, text);
    return text;
}
