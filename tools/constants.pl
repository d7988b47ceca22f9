#!/usr/bin/env perl
# Holds the library's constant tables to 64 bytes (paper 02, 2026-05). The library is the crate `surface_c` and
# all that it stands on in crates.txt. Run at the root; the gate runs it.
#
#   perl tools/constants.pl            what the source names
#   perl tools/constants.pl ARCHIVE    what the static library holds beside its code
#
# The source is counted because the archive does not show every table: the compiler may store one by
# instructions, as it did with a table of 256 class numbers. Counted there are: every constant but a decimal
# number (arrays, structs, masks in hexadecimal); every list in a function, eight bytes an entry; every byte
# string with an escape other than a tab or a line feed; and every number in the functions of
# `level_classes`, a byte each, since the bounds
# that `is_within` compares with say what a table would.
#
# In the archive it counts every byte that a program maps and does not run, but for unwinding tables
# (.eh_frame). A table of 16 bytes may hide among the compiler's operands, as that of the positions does:
# the count of the source has it.
#
# Some things are no tables and are not counted, but each is held to its figure in %at_most, so that a
# table cannot grow there unseen: what the source names to what it has today, what the compiler makes,
# which moves with every change of code, to a rounded figure. Whoever raises one says why in the note.
use strict;
use warnings;

my $most = 64;
my %at_most = (
    'limits' => 141,                     # bytes of constants that are decimal numbers
    'texts' => 130,                      # bytes of byte strings of printable characters, tabs and line feeds
    'numbers in one function' => 28,     # the most that one has: a long `match`, a chain of comparisons
    'jump tables' => 1280,               # bytes that the linker fills in: addresses of code, for `match`
    'operands of instructions' => 3072,  # .rodata.cst*: numbers that x86-64 cannot hold in an instruction;
                                         # one byte stands 16 times for an instruction on 16 bytes
);
my $faults = 0;
if (@ARGV) { count_archive($ARGV[0]) } else { count_source() }
exit($faults ? 1 : 0);

# ---- the source

sub count_source {
    my (%code, %fields, %number, @counted);
    my ($limits, $texts, $longest) = (0, 0, 0);
    for my $crate (library()) {
        my $code = join "\n", map { slurp($_) } sort glob "crates/$crate/src/*.rt";
        $code =~ s{(?:^|\s)//.*}{}gm;        # comments,
        $code =~ s{^\s+(?:requires|ensures)\b.*?(?:(?=^\s*(?:requires|ensures)\b|^\s*\{$)|;$)}{}gms;    # statements about the code,
        $code =~ s{#!?\[.*?\]}{}gs;          # attributes
        $code =~ s{<const \w+: \w+}{<}g;    # parameters that say how long an array is, or how many bytes a loop asks
        push @{ $fields{$1} }, [$2 =~ /\w+: ([^,\n]+),/g] while $code =~ /\bstruct (\w+) \{(.*?)\}/gs;
        push @{ $fields{$1} }, [split /,\s*/, $2] while $code =~ /\bstruct (\w+)\((.*?)\);/gs;
        push @{ $number{$1} }, value_of($2) while $code =~ /\bconst (\w+): \w+ = (\w+);/g;
        $code{$crate} = $code;
    }
    for my $crate (sort keys %code) {
        my $code = $code{$crate};
        while ($code =~ s/\b(?:const|static)\s+(\w+)\s*:\s*([^=]+?)\s*=\s*(.*?);//s) {
            my ($name, $type, $value) = ($1, $2, $3);
            if ($type eq '&[u8]') { $code .= "\n$value"; next }    # a text with a name
            my ($bytes) = size_of($type, \%fields, \%number);
            if ($type =~ /^\w+$/ && $value =~ /^[\d_]+$/) { $limits += $bytes }
            else { push @counted, ["$crate $name", $bytes] }
        }
        die "crates/$crate: a constant that is not understood\n" if $code =~ /\b(?:const|static)\b/;
        while ($code =~ s/\bb"((?:[^"\\]|\\.)*)"//) {
            my $string = $1;
            my $bytes = length($string =~ s/\\x..|\\./x/gr);
            if ($string =~ /\\[^tn]/) { push @counted, ["$crate, a byte string", $bytes] }
            else { $texts += $bytes }
        }
        my ($all, @functions) = (0, split /\bfn\s/, $code);
        for (@functions) {
            my $numbers = () = /(?<![\w.])\d\w*|\bb'/g;
            $all += $numbers;
            $longest = $numbers if $numbers > $longest;
        }
        push @counted, ["$crate, numbers in its functions", $all] if $crate eq 'level_classes';
        1 while $code =~ s/\([^()]*\)/x/;    # a comma between arguments parts no entries of a list
        while ($code =~ s/\[([^\[\]]*)\]/x/) {
            my @entries = grep { /\S/ } split /,/, $1;
            push @counted, ["$crate, a list in a function", 8 * @entries] if @entries > 1;
        }
    }
    answer('constants that the source names', \@counted,
        'limits' => $limits, 'texts' => $texts, 'numbers in one function' => $longest);
}

# The number that a literal says; none where it is no literal.
sub value_of {
    no warnings 'portable';    # of numbers of 64 bits
    my $literal = $_[0] =~ tr/_//dr =~ s/[ui](?:\d+|size)$//r;
    return $literal =~ /^0[xb]/ ? oct $literal : $literal =~ /^\d+$/ ? $literal : undef;
}

# The bytes of a type, and what they are aligned to.
sub size_of {
    my ($type, $fields, $number) = @_;
    return ($1 / 8, $1 / 8) if $type =~ /^[ui](8|16|32|64)$/;
    return (8, 8) if $type =~ /^[ui]size$/;
    return (1, 1) if $type eq 'bool';
    if ($type =~ /^\[(.+); (.+)\]$/) {
        my $length = value_of($2) // only($number->{$2}) // die "the length `$2` is not known\n";
        my ($bytes, $aligned) = size_of($1, $fields, $number);
        return ($bytes * $length, $aligned);
    }
    my $parts = only($fields->{$type}) // die "the size of `$type` is not known\n";
    my ($sum, $widest) = (0, 1);
    for my $part (@$parts) {
        my ($bytes, $aligned) = size_of($part, $fields, $number);
        $sum += -$sum % $aligned + $bytes;
        $widest = $aligned if $aligned > $widest;
    }
    return ($sum + -$sum % $widest, $widest);
}

# What a name says, where it is said once.
sub only { my ($said) = @_; return $said && @$said == 1 ? $said->[0] : undef }

# The crates of the library: `surface_c`, and what it stands on.
sub library {
    my %stands_on = map { /^(\w+)(?: staticlib)?:([^#]*)/ ? ($1 => [split ' ', $2]) : () } split /\n/, slurp('crates.txt');
    my (%seen, @left) = ();
    @left = ('surface_c');
    while (defined(my $crate = shift @left)) {
        push @left, @{ $stands_on{$crate} || [] } unless $seen{$crate}++;
    }
    return sort keys %seen;
}

# ---- the archive

sub count_archive {
    my ($archive) = @_;
    my (%section, %name, $code);
    my $members = 0;
    for (readelf('-SW', $archive)) {
        die "$archive: more than one member\n" if /^There are \d+ section headers/ && $members++;
        next unless /^\s*\[\s*(\d+)\]\s+(.*)/ && $1 > 0;
        my ($number, $said) = ($1, $2);
        $said =~ /^(\S+)\s+(\S+)\s+[0-9a-f]+\s+[0-9a-f]+\s+([0-9a-f]+)\s+([0-9a-f]+)\s+(\w*)\s+\d+\s+\d+\s+\d+$/
            or die "$archive: a section that is not understood: $said\n";
        my ($name, $type, $bytes, $each, $flags) = ($1, $2, hex $3, hex $4, $5);
        $code ||= $flags =~ /X/ && $bytes > 0;
        next if $flags !~ /A/ || $flags =~ /X/ || $type =~ /^(?:NOTE|NOBITS)$/ || $name eq '.eh_frame';
        die "$archive: two sections $name\n" if $section{$name};
        $section{$name} = { bytes => $bytes, each => $each, filled => 0, named => 0 };
        $name{$number} = $name;
    }
    die "$archive: no code in it, so that nothing can be said of its data\n" unless $code;
    my %width = (R_X86_64_PC32 => 4, R_X86_64_32 => 4, R_X86_64_32S => 4, R_X86_64_64 => 8, R_X86_64_PC64 => 8);
    my $inside = '';
    for (readelf('-rW', $archive)) {
        $inside = $1 if /^Relocation section '\.rela(\S+)'/;
        next unless $section{$inside} && /^[0-9a-f]{16}\s+[0-9a-f]{16}\s+(R_\w+)/;
        $section{$inside}{filled} += $width{$1} // die "$archive: a relocation $1, whose width is not known\n";
    }
    # what has a name of its own among the operands is no operand
    for (readelf('-sW', $archive)) {
        next unless /^\s*\d+:\s+[0-9a-f]+\s+\d+\s+(\w+)\s+\w+\s+\w+\s+(\d+)\s+(\S+)$/;
        $section{ $name{$2} }{named}++ if $1 ne 'SECTION' && $name{$2} && $3 !~ /^\.LCPI\d+_\d+$/;
    }
    my ($jumps, $operands, @counted) = (0, 0);
    for my $name (sort keys %section) {
        my ($bytes, $each, $filled, $named) = @{ $section{$name} }{qw(bytes each filled named)};
        my $pooled = $name =~ /^\.rodata\.cst\d+$/ ? $bytes - $each * $named : 0;
        my $left = $bytes - $filled - $pooled;
        die "$archive: $name has $bytes bytes, of which more are filled in\n" if $left < 0 || $pooled < 0;
        $jumps += $filled;
        $operands += $pooled;
        push @counted, [$name, $left] if $left;
    }
    answer("tables in $archive", \@counted, 'jump tables' => $jumps, 'operands of instructions' => $operands);
}

sub readelf {
    my ($what, $archive) = @_;
    local $ENV{LC_ALL} = 'C';
    open my $said, '-|', 'readelf', $what, $archive or die "readelf: $!\n";
    my @lines = <$said>;
    close $said or die "readelf $what $archive failed\n";
    return @lines;
}

# ---- both

# Prints what is counted and what is not; complains of a sum above 64, and of what is above its figure.
sub answer {
    my ($what, $counted, %told) = @_;
    my $total = 0;
    $total += $_->[1] for @$counted;
    my $each = join ', ', map { "$_->[0] $_->[1]" } @$counted;
    printf "%s: %d of %d bytes%s; not counted: %s\n", $what, $total, $most, ($each ? " ($each)" : ''),
        join ', ', map { "$_ $told{$_} of $at_most{$_}" } sort keys %told;
    my @over = map { "$_: $told{$_}, and $at_most{$_} are allowed" } grep { $told{$_} > $at_most{$_} } sort keys %told;
    unshift @over, "$total bytes, and $most are allowed" if $total > $most;
    print STDERR "$what: $_\n" for @over;
    $faults += @over;
}

sub slurp {
    my ($file) = @_;
    open my $opened, '<', $file or die "$file: $!\n";
    local $/;
    return scalar <$opened>;
}
