#include "subject.h"

#include <sys/wait.h>
#include <unistd.h>

#include <algorithm>
#include <cstdio>
#include <cstdlib>
#include <memory>

#include "corpora.h"
#include "peers.h"

// As many lines of a corpus, each a subject by itself.
constexpr size_t LINES = 512;

struct Subjects {
    std::string name;
    std::vector<Cells> units;
    std::vector<Bytes> lines; // as ours are written
    std::vector<Bytes> utf7;  // the same units in header style

    size_t bytes() const {
        size_t sum = 0;
        for (const Bytes &line : lines) sum += line.size();
        return sum;
    }

    size_t cells() const {
        size_t sum = 0;
        for (const Cells &each : units) sum += each.size();
        return sum;
    }

    size_t longest() const {
        size_t most = 0;
        for (const Bytes &line : lines) most = std::max(most, line.size());
        return most;
    }
};

using Shared = std::shared_ptr<const Subjects>;

// What a call needs at most for so many units, so that ours counts none.
static size_t room_for(const Cells &units) { return 78 * units.size(); }

static size_t accepted(qalithonda_numbers answer) {
    if (answer.number != 0) fail("subject line: number " + std::to_string(answer.number));
    return answer.place;
}

static Bytes written(WriteCall write, const Cells &units) {
    Bytes out(room_for(units));
    out.resize(accepted(write(units.data(), units.size(), out.data(), out.size())));
    return out;
}

static void read_all(ReadCall read, const std::vector<Bytes> &texts, Cells &cells) {
    for (const Bytes &text : texts) accepted(read(text.data(), text.size(), cells.data(), cells.size()));
}

static void write_all(WriteCall write, const std::vector<Cells> &lists, Bytes &out) {
    for (const Cells &units : lists) accepted(write(units.data(), units.size(), out.data(), out.size()));
}

// A line must give its units back.
static Shared make_subjects(const TextKind &kind, uint64_t seed) {
    auto made = std::make_shared<Subjects>();
    made->name = "subject" + kind.name.substr(kind.name.find('-'));
    Rng rng(seed, made->name);
    for (size_t i = 0; i < LINES; i++) {
        const Cells units = kind.line(rng, 200);
        const Bytes line = written(qalithonda_subject_write, units);
        Cells back(units.size());
        back.resize(accepted(qalithonda_subject_read(line.data(), line.size(), back.data(), back.size())));
        if (back != units) fail("subject line: not the units that were written");
        made->units.push_back(units);
        made->lines.push_back(line);
        made->utf7.push_back(written(qalithonda_utf7_header_write, units));
    }
    return made;
}

// ---- Python

// Reads the lines, which stand with a NUL between them, and compares them with their texts; then prints the seconds of each
// run, in which all are read, or all texts are written.
static const char SCRIPT[] = R"(
import sys, time
from email.charset import Charset, QP
from email.header import Header, decode_header
lines = open(sys.argv[1], "rb").read().decode("ascii").split("\0")
texts = open(sys.argv[2], "rb").read().decode("utf_16_le").split("\0")
charset = Charset("utf-7")
charset.header_encoding, charset.input_codec, charset.output_codec = QP, "utf-7", "utf-7"
def read():
    return ["".join(part.decode(name) for part, name in decode_header(line)) for line in lines]
def write():
    return [Header(text, charset, maxlinelen=75).encode(linesep="\r\n") for text in texts]
if read() != texts:
    sys.exit("python reads other texts")
call = {"subject_read": read, "subject_write": write}[sys.argv[3]]
call()
for run in range(int(sys.argv[4])):
    began = time.process_time()
    call()
    print(time.process_time() - began)
)";

// A file that is gone with it.
class Temporary {
public:
    Temporary() {
        const int file = mkstemp(name);
        if (file < 0) fail("no temporary file");
        close(file);
    }
    ~Temporary() { unlink(name); }
    Temporary(const Temporary &) = delete;

    void put(const std::string &bytes) const {
        std::FILE *file = std::fopen(name, "wb");
        if (!file || std::fwrite(bytes.data(), 1, bytes.size(), file) != bytes.size()) fail("a temporary file is not written");
        std::fclose(file);
    }

    char name[32] = "/tmp/bench.XXXXXX";
};

// The items with NUL between them; each element is so many bytes, the low one first.
template <class List> static std::string joined(const std::vector<List> &items, size_t width) {
    std::string all;
    for (size_t i = 0; i < items.size(); i++) {
        if (i > 0) all.append(width, '\0');
        for (uint32_t element : items[i])
            for (size_t k = 0; k < width; k++) all.push_back(char(element >> 8 * k & 255));
    }
    return all;
}

static std::vector<double> python_times(const Subjects &subjects, const std::string &call, size_t runs) {
    const Temporary script, lines, texts;
    script.put(SCRIPT);
    lines.put(joined(subjects.lines, 1));
    texts.put(joined(subjects.units, 2));
    const std::string command = std::string("python3 ") + script.name + " " + lines.name + " " + texts.name + " " + call + " " +
                                std::to_string(runs) + " 2>/dev/null";
    std::FILE *output = popen(command.c_str(), "r");
    if (!output) return {};
    std::vector<double> seconds;
    double each;
    while (std::fscanf(output, "%lf", &each) == 1) seconds.push_back(each);
    const int status = pclose(output);
    if (WIFEXITED(status) && WEXITSTATUS(status) == 127) return {}; // no python3 here
    if (status != 0 || seconds.size() != runs) fail("python's email.header on subject lines");
    return seconds;
}

// ---- The rows

static SubjectRow row_of(Shared subjects, const std::string &call, std::vector<Party> parties) {
    const Task task{subjects->name, std::to_string(LINES) + " lines", call, subjects->bytes(), subjects->cells()};
    return {{task, std::move(parties)},
            [subjects, call](size_t runs) { return python_times(*subjects, call, runs); }};
}

std::vector<SubjectRow> subject_rows(uint64_t seed) {
    std::vector<SubjectRow> rows;
    for (const TextKind &kind : text_kinds()) {
        if (kind.format != &UTF7 || kind.end.empty()) continue; // of lines alone
        const Shared subjects = make_subjects(kind, seed);
        auto cells = std::make_shared<Cells>(subjects->longest());
        auto out = std::make_shared<Bytes>(78 * subjects->longest());
        rows.push_back(row_of(subjects, "subject_read",
                              {{"ours", [=] { read_all(qalithonda_subject_read, subjects->lines, *cells); }},
                               {"UTF-7", [=] { read_all(qalithonda_utf7_read, subjects->utf7, *cells); }}}));
        rows.push_back(row_of(subjects, "subject_write",
                              {{"ours", [=] { write_all(qalithonda_subject_write, subjects->units, *out); }},
                               {"UTF-7", [=] { write_all(qalithonda_utf7_header_write, subjects->units, *out); }}}));
    }
    return rows;
}
