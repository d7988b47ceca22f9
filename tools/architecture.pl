#!/usr/bin/env perl
# Makes the list of crates in docs/ARCHITECTURE.md from crates.txt and the first sentence of each crate. Run at the
# root: it reads the page on standard input, and prints it with the list anew between its two marks.
#
#     perl tools/architecture.pl <docs/ARCHITECTURE.md
use strict;
use warnings;

my $page = join '', <STDIN>;
my $list = list();
$page =~ s/(<!-- the crates: made by tools\/architecture.pl -->\n).*(<!-- end of the crates -->\n)/$1$list$2/s
    or die "no marks for the list of crates\n";
print $page;

sub list {
    my $text = '';
    open my $listed, '<', 'crates.txt' or die "crates.txt: $!\n";
    while (<$listed>) {
        $text .= "\n### \u$1\n\n\u$2\n" if /^# (\w+): (.*)$/;
        $text .= "\n**$1**: $2\n\n| crate | what it is |\n|---|---|\n" if /^## (\w+): (.*)$/;
        $text .= "| `$1` | " . first_sentence($1) . " |\n" if /^(\w+)(?: staticlib)?:/;
    }
    return "$text\n";
}

# The first sentence of the comment that a crate begins with.
sub first_sentence {
    my ($crate) = @_;
    my ($file) = grep { -e } map { "crates/$crate/src/$_.rt" } qw(lib main);
    open my $source, '<', $file or die "$file: $!\n";
    my $comment = '';
    while (<$source>) {
        last unless s/^\/\/ ?//;
        $comment .= s/\s+$/ /r;
    }
    my ($sentence) = $comment =~ /^(.*?\.)(?: |$)/;
    defined $sentence or die "$file: no sentence in its first comment\n";
    return $sentence =~ s/\.$//r =~ s/\|/\\|/gr;
}
