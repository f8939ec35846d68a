//! Perl's Encode, which comes with it, in one process that is sent all lines. It refuses none.

use super::{ask, Answers};

const SCRIPT: &str = r#"
use Encode;
binmode STDIN;
binmode STDOUT;
my $given = do { local $/; <STDIN> };
my $taken = 0;
while ($taken < length $given) {
    my $length = unpack "V", substr($given, $taken, 4);
    my $units = encode("UTF-16LE", decode("MIME-Header", substr($given, $taken + 4, $length)));
    print pack("V", length $units), $units;
    $taken += 4 + $length;
}
"#;

pub fn read_headers(lines: &[Vec<u8>]) -> Answers {
    ask("perl", &["-e", SCRIPT], lines)
}
