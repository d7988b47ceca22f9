#!/usr/bin/env perl
# Writes the C functions between a caller on aarch64 and the proved module. The module answers as on x86-64: a struct of more than 16
# bytes goes to the address that is the first argument. On aarch64 such an address comes in a register of its own, so that each function
# of include/hverolda.h that answers with such a struct needs one that takes the address from there. The module's own function is called
# proved_NAME. Run at the root; tools/compile compiles what this prints, and renames the module's functions that it names.
use strict;
use warnings;

open my $file, '<', 'include/hverolda.h' or die "include/hverolda.h: $!\n";
my $header = join '', <$file>;
my %size = $header =~ /^HVEROLDA_HOLDS\(sizeof\((\w+)\) == (\d+)\)$/mg;
$header =~ s{/\*.*?\*/}{}gs;

print "#define HVEROLDA_CALLER ", $header =~ /^#define HVEROLDA_HEADER (\d+)$/m, "\n#include \"hverolda.h\"\n";
while ($header =~ /^(hverolda_\w+) (hverolda_\w+)\(([^)]*)\);/mg) {
    my ($type, $name, $list) = ($1, $2, $3);
    die "answers.pl: the header does not say how long $type is\n" unless $size{$type};
    next if $size{$type} <= 16;
    my $names = join ', ', map { /(\w+)$/ } split /,\s*/, $list;
    print "\nvoid proved_$name($type *answer, $list);\n\n",
        "$type $name($list)\n{\n    $type answer;\n    proved_$name(&answer, $names);\n    return answer;\n}\n";
}
