#include "instructions.h"

#include <cstdio>
#include <cstdlib>
#include <map>

#include "peers.h"

// In single quotes for the shell.
static std::string quoted(const std::string &text) { return "'" + text + "'"; }

static double counted(const std::string &program, const std::string &seed, const Row &row, const Party &party, size_t passes) {
    const std::string command = "valgrind --tool=callgrind --callgrind-out-file=/dev/null " + quoted(program) + " --seed " +
                                seed + " --alone " + quoted(row.task.key()) + " " + quoted(party.name) +
                                " " + std::to_string(passes) + " 2>&1";
    FILE *pipe = popen(command.c_str(), "r");
    if (!pipe) fail("no shell");
    double collected = -1;
    std::string all;
    char line[512];
    while (std::fgets(line, sizeof line, pipe)) {
        all += line;
        unsigned long long number;
        if (std::sscanf(line, "==%*d== Collected : %llu", &number) == 1) collected = double(number);
    }
    if (pclose(pipe) != 0 || collected < 0) fail("valgrind: " + command + "\n" + all);
    return collected;
}

// Of the passes alone: what is counted of 2N less that of N.
static double each_byte(const std::string &program, const std::string &seed, const Row &row, const Party &party, size_t passes) {
    const double more = counted(program, seed, row, party, 2 * passes), less = counted(program, seed, row, party, passes);
    return (more - less) / double(passes) / double(row.task.bytes);
}

Table instruction_table(const std::vector<Row> &rows, const std::string &program, const std::string &seed, size_t passes) {
    Table table{"Instructions for each byte", {"corpus", "call", "ours", "iconv", "ICU", "iconv/ours", "ICU/ours"}, {}, {}};
    for (const Row &row : rows) {
        std::map<std::string, double> counts;
        for (const Party &party : row.parties) {
            if (party.name == "UTF-16LE") continue; // does as WCHAR_T does and one step more
            counts[party.name] = each_byte(program, seed, row, party, passes);
        }
        const auto show = [&](const std::string &party, double by) {
            return counts.count(party) ? fixed(counts[party] / by, 2) : std::string("-");
        };
        table.lines.push_back({row.task.subject, row.task.call, show("ours", 1), show("WCHAR_T", 1), show("ICU", 1),
                               show("WCHAR_T", counts["ours"]), show("ICU", counts["ours"])});
        std::fprintf(stderr, "%s\n", row.task.key().c_str());
    }
    table.notes = {"callgrind: " + std::to_string(2 * passes) + " passes less " + std::to_string(passes) +
                       ". Bytes of the corpus, 64 KiB; iconv to and from WCHAR_T; for step, ICU's ucnv_getNextUChar.",
                   "Above 1 ours needs fewer."};
    return table;
}
