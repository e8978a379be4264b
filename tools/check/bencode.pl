# Reads payloads (length in 4 bytes, little-endian, then the bytes) and prints
# a line for each: 1 or 0, whether Debian's Bencode module accepts it in its
# lenient mode with 16 levels, and the same for its normal mode.
use strict;
use warnings;
use Bencode ();

local $SIG{__WARN__} = sub { };

sub accepts {
    my ($payload, @mode) = @_;
    return eval { Bencode::bdecode($payload, @mode); 1 } ? 1 : 0;
}

binmode STDIN;
while (read(STDIN, my $size, 4)) {
    my $payload = '';
    read(STDIN, $payload, unpack('V', $size));
    print accepts($payload, 1, 16), ' ', accepts($payload), "\n";
}
