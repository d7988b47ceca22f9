#!/usr/bin/env perl
# Holds every quotation in the comments of crates/ against the papers: what stands between quotation marks must
# be words of theirs, in any case of letters; `..` leaves words out, and [..] holds words of ours. Said of the
# papers' own words alone: a quotation of five letters or fewer, or of a text in code, is passed over.
# The papers are not part of the repository. Run at the root: perl tools/quotes.pl PAPER.md..
use strict;
use warnings;
use utf8;
use File::Find;
binmode STDOUT, ':encoding(UTF-8)';

die "usage: perl tools/quotes.pl PAPER.md..\n" unless @ARGV;
my $papers = plain(join ' ', map { text_of($_) } @ARGV);
my @files;
find({ no_chdir => 1, wanted => sub { push @files, $_ if /\.(?:rt|antt)$/ && !m{/(?:out|target)/} } }, 'crates');
my $faults = 0;
for my $file (sort @files) {
    for my $comment (comments_of(text_of($file))) {
        while ($comment =~ /"([^"]{6,})"/g) {
            my $quoted = $1;
            my @missing = grep { length && index($papers, $_) < 0 } map { plain($_) =~ s/^[ .,;:]+|[ .,;:]+$//gr } split /\s?\.\.+\s?|\[[^\]]*\]/, $quoted;
            next if !@missing || $quoted =~ /^[ ,;]/;
            print "$file: no words of the papers: \"$quoted\"\n";
            $faults++;
        }
    }
}
exit($faults ? 1 : 0);

# Comments, lines that follow one another joined.
sub comments_of {
    my ($text) = @_;
    my @comments = ('');
    for (split /\n/, $text) {
        if (m{^\s*(?:--|//) ?(.*)}) { $comments[-1] .= " $1" }
        elsif ($comments[-1] ne '') { push @comments, '' }
    }
    return @comments;
}

sub plain {
    my ($text) = @_;
    $text =~ s/[`*]//g;
    $text =~ s/\s+/ /g;
    return lc $text;
}

sub text_of {
    my ($path) = @_;
    open my $file, '<:encoding(UTF-8)', $path or die "$path: $!";
    local $/;
    return scalar <$file>;
}
