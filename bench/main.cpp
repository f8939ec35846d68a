// Measures ours against glibc's iconv and ICU. bench/README.md tells the flags.
#include <unistd.h>

#include <chrono>
#include <cstdio>
#include <cstdlib>
#include <memory>

#include "agree.h"
#include "benches.h"
#include "instructions.h"
#include "machine.h"
#include "page.h"
#include "page_files.h"
#include "peers.h"
#include "results.h"
#include "subject.h"
#include "texts.h"

struct Options {
    bool markdown = false, parties = false, valgrind = false;
    std::string only; // rows whose key contains this
    std::string seed = "2152";
    Effort effort;
    size_t passes = 2; // of a count by valgrind
    std::string alone_row, alone_party;
    size_t alone_passes = 0;
};

[[noreturn]] static void usage() {
    fail("usage: bench [--markdown] [--only TEXT] [--runs N] [--ms N] [--seed N] [--parties] [--valgrind] [--passes N]\n"
         "       bench [--seed N] --alone ROW PARTY N");
}

static Options options_of(int count, char **words) {
    Options o;
    for (int i = 1; i < count; i++) {
        const std::string word = words[i];
        const auto value = [&]() -> std::string {
            if (i + 1 >= count) usage();
            return words[++i];
        };
        if (word == "--markdown") o.markdown = true;
        else if (word == "--parties") o.parties = true;
        else if (word == "--valgrind") o.valgrind = true;
        else if (word == "--only") o.only = value();
        else if (word == "--seed") o.seed = std::to_string(std::strtoull(value().c_str(), nullptr, 10));
        else if (word == "--runs") o.effort.runs = std::strtoul(value().c_str(), nullptr, 10);
        else if (word == "--ms") o.effort.seconds = std::strtod(value().c_str(), nullptr) / 1000;
        else if (word == "--passes") o.passes = std::strtoul(value().c_str(), nullptr, 10);
        else if (word == "--alone") {
            o.alone_row = value();
            o.alone_party = value();
            o.alone_passes = std::strtoul(value().c_str(), nullptr, 10);
        } else usage();
    }
    if (o.effort.runs < 5 || o.passes < 1) fail("at least 5 runs, and 1 pass");
    return o;
}

static std::shared_ptr<const Material> material_for(const Options &o, const TextKind &kind, const TextSize &size) {
    const uint64_t seed = std::strtoull(o.seed.c_str(), nullptr, 10);
    return std::make_shared<const Material>(prepare(make_corpus(kind, size, seed)));
}

static bool wanted(const Options &o, const std::string &key) { return key.find(o.only) != std::string::npos; }

// For valgrind and profilers: one party of one row, so many times, and nothing else.
static int run_party(const Options &o, const Row &row) {
    for (const Party &party : row.parties) {
        if (party.name != o.alone_party) continue;
        for (size_t i = 0; i < o.alone_passes; i++) party.pass();
        return 0;
    }
    fail("no such party: " + o.alone_party);
}

static int run_alone(const Options &o) {
    for (const TextSize &size : text_sizes())
        for (const TextKind &kind : text_kinds()) {
            if (o.alone_row.rfind(kind.name + "/" + size.name + "/", 0) != 0) continue;
            for (const Row &row : text_rows(material_for(o, kind, size)))
                if (row.task.key() == o.alone_row) return run_party(o, row);
        }
    fail("no such row: " + o.alone_row);
}

// The wanted rows of a corpus, once its contents are seen to agree.
static std::vector<Row> wanted_rows(const Options &o, const TextKind &kind, const TextSize &size,
                                    std::vector<Agreement> &agreements) {
    std::vector<Row> rows;
    bool any = false;
    for (const std::string &call : text_calls(*kind.format)) any |= wanted(o, kind.name + "/" + size.name + "/" + call);
    if (!any) return rows;
    auto material = material_for(o, kind, size);
    agreements.push_back(check_agreement(*material));
    for (const Row &row : text_rows(material))
        if (wanted(o, row.task.key())) rows.push_back(row);
    return rows;
}

static void print_machine(bool markdown) {
    for (const auto &[name, value] : machine_facts())
        std::printf(markdown ? "- %s: %s\n" : "%s: %s\n", name.c_str(), value.c_str());
}

static void count_instructions(const Options &o) {
    char program[4096];
    const ssize_t length = readlink("/proc/self/exe", program, sizeof program - 1);
    if (length < 0) fail("/proc/self/exe cannot be read");
    program[length] = 0;
    std::vector<Row> rows;
    std::vector<Agreement> agreements;
    for (const TextSize &size : text_sizes()) {
        if (size.name != "64K") continue;
        for (const TextKind &kind : text_kinds())
            for (const Row &row : wanted_rows(o, kind, size, agreements)) rows.push_back(row);
    }
    print(instruction_table(rows, program, o.seed, o.passes), o.markdown);
}

static void measure_all(const Options &o) {
    std::vector<Measured> all;
    std::vector<Agreement> agreements;
    const auto take = [&](const Row &row) {
        if (!wanted(o, row.task.key())) return;
        std::fprintf(stderr, "%s\n", row.task.key().c_str()); // so that one sees it move
        all.push_back({row.task, measure(row, o.effort)});
    };
    for (const TextSize &size : text_sizes()) {
        take(limit_row(size));
        for (const TextKind &kind : text_kinds())
            for (const Row &row : wanted_rows(o, kind, size, agreements)) take(row);
    }
    for (const Row &row : page_rows()) take(row);
    for (const Row &row : page_file_rows()) take(row);
    for (const Row &row : bench_rows()) take(row);
    for (const SubjectRow &subject : subject_rows(std::strtoull(o.seed.c_str(), nullptr, 10))) {
        if (!wanted(o, subject.row.task.key())) continue;
        take(subject.row);
        const std::vector<double> python = subject.python(o.effort.runs);
        if (!python.empty()) all.back().timed.push_back({"Python", python});
    }
    for (const Table &table : {ratio_table(all), reading_table(all), writing_table(all), stepping_table(all),
                               comparing_table(all), page_table(all), growth_table(all), squeeze_table(all), page_file_table(all),
                               bench_table(all), subject_table(all), limit_table(all), agreement_table(agreements)})
        print(table, o.markdown);
    if (o.parties) print(parties_table(all), o.markdown);
    std::printf("\n%zu runs of at least %.0f ms for each party, in turn, after a warm-up; medians.\n", o.effort.runs,
                o.effort.seconds * 1000);
}

int main(int count, char **words) {
    const Options o = options_of(count, words);
    if (!o.alone_row.empty()) return run_alone(o);
    const auto began = std::chrono::steady_clock::now();
    print_machine(o.markdown);
    o.valgrind ? count_instructions(o) : measure_all(o);
    const std::chrono::duration<double> took = std::chrono::steady_clock::now() - began;
    std::fprintf(stderr, "%.0f s\n", took.count());
}
