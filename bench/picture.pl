#!/usr/bin/env perl
# Draws the figures of the benchmark: for each flavour two bars, Judge and Normalise, ours over the rival's; a mark on
# each for the rival's byte by byte, and lines for the aims.
#
#     perl bench/picture.pl <docs/performance.tsv >docs/performance.svg
use strict;
use warnings;

chomp(my @names = split /\t/, scalar <STDIN>);
my @rows;
while (my $line = <STDIN>) {
    chomp $line;
    my %row;
    @row{@names} = split /\t/, $line;
    push @rows, \%row;
}
die "no figures\n" unless @rows;

sub ratio {
    my ($row, $operation, $other) = @_;
    return $row->{"$operation, ours"} / $row->{"$operation, $other"};
}

my @bars = (["judge", "#35618e"], ["normalise", "#c98a2b"]);
# the aim for mixed orders, the aim for every flavour, what the request asks
my @aims = ([1.0, "mixed 1.0"], [1.5, "all 1.5"], [3.0, "request 3.0"]);
my ($left, $top, $row_height, $width) = (210, 74, 34, 560);
my $most = 0;
for my $row (@rows) {
    for my $bar (@bars) {
        my $ratio = ratio($row, $bar->[0], "rival");
        $most = $ratio if $ratio > $most;
    }
}
# as far as the line of the request, and further where a bar is longer
my $whole = $most < 3 ? 3 : int($most) + 1;
my $scale = $width / $whole;
my ($all_width, $bottom) = ($left + $width + 60, $top + $row_height * @rows);
my $all_height = $bottom + 30;

sub x { return sprintf "%.1f", $left + $scale * shift }

sub text {
    my ($x, $y, $text, @more) = @_;
    print qq(<text x="$x" y="$y" @more>$text</text>\n);
}

print qq(<svg xmlns="http://www.w3.org/2000/svg" width="$all_width" height="$all_height" font-family="sans-serif" font-size="12">\n);
print qq(<rect width="$all_width" height="$all_height" fill="white"/>\n);
text(10, 18, "Time of ours over the rival's, by flavour (shorter is better)", qq(font-size="14"));
my $x = 10;
for my $bar (@bars) {
    print qq(<rect x="$x" y="28" width="12" height="12" fill="$bar->[1]"/>\n);
    text($x + 17, 38, ucfirst $bar->[0]);
    $x += 95;
}
print qq(<rect x="$x" y="28" width="2" height="12" fill="black"/>\n);
text($x + 9, 38, "over the rival's byte by byte");
for my $number (0 .. $whole) {
    print '<line x1="', x($number), qq(" y1="$top" x2="), x($number), qq(" y2="$bottom" stroke="#ddd"/>\n);
    text(x($number), $bottom + 16, $number, q(text-anchor="middle"));
}
for my $number (0 .. $#rows) {
    my $y = $top + $row_height * $number + 4;
    text($left - 8, $y + 17, $rows[$number]{flavour}, q(text-anchor="end"));
    for my $bar (@bars) {
        my $ratio = ratio($rows[$number], $bar->[0], "rival");
        printf qq(<rect x="$left" y="$y" width="%.1f" height="12" fill="$bar->[1]"/>\n), $scale * $ratio;
        my $plain = x(ratio($rows[$number], $bar->[0], "rival by bytes")) - 1;
        print qq(<rect x="$plain" y="$y" width="2" height="12" fill="black"/>\n);
        text(x($ratio) + 5, $y + 10, sprintf("%.2f", $ratio), q(font-size="10"));
        $y += 13;
    }
}
for my $number (0 .. $#aims) {
    my ($at, $name) = (x($aims[$number][0]), $aims[$number][1]);
    my $y = $top - 4 - 12 * ($number % 2);
    print qq(<line x1="$at" y1="$top" x2="$at" y2="$bottom" stroke="#b03030" stroke-dasharray="4 3"/>\n);
    text($at, $y, $name, q(text-anchor="middle" font-size="10" fill="#b03030"));
}
print "</svg>\n";
