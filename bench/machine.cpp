#include "machine.h"

#include <gnu/libc-version.h>
#include <sys/utsname.h>
#include <unistd.h>

#include <cstdio>
#include <cstdlib>
#include <ctime>
#include <fstream>

#include "peers.h"

static std::string processor() {
    std::ifstream info("/proc/cpuinfo");
    for (std::string line; std::getline(info, line);)
        if (line.rfind("model name", 0) == 0) return line.substr(line.find(':') + 2);
    return "unknown";
}

static std::string compiler() {
#ifdef __clang__
    return __VERSION__;
#else
    return std::string("gcc ") + __VERSION__;
#endif
}

std::vector<std::pair<std::string, std::string>> machine_facts() {
    const std::time_t now = std::time(nullptr);
    char date[32], load[32];
    std::strftime(date, sizeof date, "%Y-%m-%d %H:%M UTC", std::gmtime(&now));
    double loads[1] = {0};
    if (getloadavg(loads, 1) != 1) loads[0] = -1;
    std::snprintf(load, sizeof load, "%.2f", loads[0]);
    utsname system;
    uname(&system);
    return {
        {"date", date},
        {"processor", processor() + ", " + std::to_string(sysconf(_SC_NPROCESSORS_ONLN)) + " cores"},
        {"load at the start", load}, // above 1, others are at work and the numbers are rough
        {"kernel", std::string(system.sysname) + " " + system.release + " " + system.machine},
        {"compiler of the bench", compiler() + ", " + BENCH_FLAGS},
        {"glibc", gnu_get_libc_version()},
        {"ICU", icu_version()},
    };
}
