#include "formats.h"

// One call a cell, as a host would write it.
template <auto start, auto step> static qalithonda_numbers steps(const uint8_t *text, size_t length, uint32_t *cells) {
    auto cursor = start();
    for (;;) {
        const auto stepped = step(text, length, cursor);
        if (!stepped.given) return stepped.answer;
        *cells++ = stepped.cell;
        cursor = stepped.next;
    }
}

// ICU's plain UTF-7 writes sets D and O as themselves, as our body style does; version=1 only set D, as header style.
const Format UTF7 = {
    "UTF-7",
    qalithonda_utf7_read,
    steps<qalithonda_utf7_start, qalithonda_utf7_step>,
    qalithonda_utf7_compare,
    {{"body", qalithonda_utf7_body_write, "UTF-7"}, {"header", qalithonda_utf7_header_write, "UTF-7,version=1"}},
    "UTF-7",
    "UTF-7",
    true,
};

const Format JP2 = {
    "JP-2",
    qalithonda_jp2_read,
    steps<qalithonda_jp2_start, qalithonda_jp2_step>,
    qalithonda_jp2_compare,
    {{"", qalithonda_jp2_write, "ISO-2022-JP-2"}},
    "ISO-2022-JP-2",
    "ISO-2022-JP-2",
    false,
};

const Format MAILBOX = {
    "mailbox names",
    qalithonda_mailbox_read,
    steps<qalithonda_mailbox_start, qalithonda_mailbox_step>,
    qalithonda_mailbox_compare,
    {{"", qalithonda_mailbox_write, "IMAP-mailbox-name"}},
    "UTF-7-IMAP",
    "IMAP-mailbox-name",
    true,
};
