# Holds the instructions that each operation takes on an interchange of each family to the stored figures.
#
#     perl bench/instructions.pl BENCH            fails where a call takes more than 3 % and 300 instructions over its figure
#     perl bench/instructions.pl --store BENCH    stores the figures anew
#
# BENCH is the benchmark's program; `bench count` calls each operation once, and valgrind counts the instructions of each call
# (callgrind, the calls of `bench_counted` alone). They do not depend on what else the machine does. The C library's memset and
# memcpy are held to one kind of processor; the few hundred are for what other compilers make of the calls around the library.
use strict;
use warnings;
use File::Temp 'tempdir';

my $store = @ARGV && $ARGV[0] eq '--store' && shift;
my $bench = shift or die "usage: perl bench/instructions.pl [--store] BENCH\n";
my $stored = __FILE__ =~ s/pl$/tsv/r;

my $folder = tempdir(CLEANUP => 1);
$ENV{GLIBC_TUNABLES} = 'glibc.cpu.hwcaps=-AVX2,-AVX512F,-ERMS,-FSRM';
my @calls = `valgrind -q --tool=callgrind --callgrind-out-file=$folder/out --toggle-collect=bench_counted --dump-after=bench_counted $bench count`;
die "the calls could not be counted\n" if $? || !@calls;
chomp @calls;
my @counts = map { count_of("$folder/out." . $_) } 1 .. @calls;

sub count_of {
    open my $file, '<', shift or die "a call was not counted: $!\n";
    while (<$file>) { return $1 if /^(?:summary|totals): (\d+)/ }
    die "a call was not counted\n";
}

if ($store) {
    open my $table, '>', $stored or die "$stored: $!\n";
    print $table "$calls[$_]\t$counts[$_]\n" for 0 .. $#calls;
    exit;
}
open my $table, '<', $stored or die "$stored: $!\n";
my %most = map { /^(.*)\t(\d+)$/ } <$table>;
die "the calls are not those of $stored: store them anew\n" unless "@calls" eq join ' ', grep { exists $most{$_} } @calls and @calls == keys %most;
my @over = grep { $counts[$_] > $most{$calls[$_]} * 1.03 + 300 } 0 .. $#calls;
print join "\t", $calls[$_], "$counts[$_] instructions, where $most{$calls[$_]} are stored\n" for @over;
my $fewer = grep { $counts[$_] < $most{$calls[$_]} * 0.9 } 0 .. $#calls;
print "$fewer calls take a tenth less than is stored, or fewer: store the figures anew\n" if $fewer;
exit 1 if @over;
