#!/usr/bin/env perl
# Checks that what the pages name exists. In README.md and docs/*.md (but for docs/FUNCTIONS.md, which
# is made from the code) these are names:
#   `crate`: `name`, `name` and `name`   declarations of that crate: definition, law, record, field,
#                                        type, case, constant, function; `Record .field` names both
#   `crate::function`                    a function of its src/
#   `crate/edit`                         an edit of its must-fail/
#   `docs/..`, `crates/..`, [..](..)     a file or a folder; * stands for any
#   D12                                  an entry of docs/DECISIONS.md
# In the tables of docs/PAPER-*.md all but the first column hold names, each in one of these forms or
# the name of a crate alone.
# The notes in docs/landings are left out: they also name what a landing took away.
# Run at the root. Says a line for each name that does not exist, and fails where there is one.
use strict;
use warnings;
use File::Find;

my ($faults, %declared) = (0);
my %crate = map { $_ => 1 } map { /^(\w+)(?: staticlib)?:/ } lines('crates.txt');
my %entry = map { $_ => 1 } map { /^(\d+)\. \*\*/ } lines('docs/DECISIONS.md');

check_names($_) for 'README.md', sort grep { $_ ne 'docs/FUNCTIONS.md' } glob 'docs/*.md';
check_map($_) for glob 'docs/PAPER-*.md';
exit($faults ? 1 : 0);

# ---- the pages

# Every name that has one of the forms.
sub check_names {
    my ($page) = @_;
    my $text = join '', lines($page);
    for my $name (sort { $a->{at} <=> $b->{at} } names_in($text)) {
        my $wrong = wrong_with($name, $page);
        fault($page, 1 + (substr($text, 0, $name->{at}) =~ tr/\n//), $wrong) if $wrong;
    }
}

# The names of a text: of which sort, what is between the ticks, its parts, and where it stands.
sub names_in {
    my ($text) = @_;
    my @names;
    my $named = sub { push @names, { sort => $_[0], at => $_[1], span => $_[2], parts => [@_[3 .. $#_]] } };
    my $next = qr/,\s+(?:and\s+)?|\s+and\s+/;
    while ($text =~ /`([a-z]\w*)`:\s+((?:`[^`]+`(?:$next)?)+)/g) {
        my ($crate, $spans, $at) = ($1, $2, $-[2]);
        $named->('crate', $at, $crate, $crate);
        $named->('declaration', $at + $-[0], $1, $crate, $1) while $spans =~ /`([^`]+)`/g;
    }
    $named->('function', $-[0], "$1\::$2", $1, $2) while $text =~ /`(\w+)::(\w+)`/g;
    $named->('edit', $-[0], "$1/$2", $1, $2)
        while $text =~ /`(?!(?:docs|crates|rust|include|examples|tests|bench|tools|target|specs|proofs|src)\/)([a-z]\w*)\/([a-z]\w*)`/g;
    $named->('path', $-[0], $1, $1) while $text =~ /`((?:docs|crates|rust|include|examples|tests|bench|tools|\.ci)\/[^\s`]*)`/g;
    $named->('link', $-[0], $1, $1) while $text =~ /\]\((?!https?:|#)([^)\s#]+)[^)]*\)/g;
    $named->('entry', $-[0], "D$1", $1) while $text =~ /\bD(\d+)\b/g;
    return @names;
}

# The rows of the map: each has four columns, says what answers, and names it so that it can be checked.
sub check_map {
    my ($page) = @_;
    my $line = 0;
    for (lines($page)) {
        $line++;
        next unless /^\|/ && !/^\|[-|]+\|$/;
        my (undef, $sentence, @cells) = split /\s*\|\s*/, s/\|\s*$//r, -1;
        next if $cells[0] eq 'Definition';
        fault($page, $line, 'a row has the columns Sentence, Definition, Law, Code and proof') if @cells != 3;
        fault($page, $line, "nothing answers for \"$sentence\"") unless grep { /\w/ } @cells;
        for my $cell (@cells) {
            my %formed = map { $_->{span} => 1 } names_in($cell);
            fault($page, $line, "`$_` is no crate, and has none of the forms that tools/map.pl checks")
                for grep { !$formed{$_} && !$crate{$_} } $cell =~ /`([^`]+)`/g;
        }
    }
}

# ---- what exists

# What is wrong with a name, or nothing.
sub wrong_with {
    my ($name, $page) = @_;
    my ($sort, $first, $second) = ($name->{sort}, @{ $name->{parts} });
    if ($sort eq 'entry') {
        return $entry{$first} ? '' : "docs/DECISIONS.md has no entry $first";
    }
    if ($sort eq 'path' || $sort eq 'link') {
        my $path = $sort eq 'link' ? ($page =~ s/[^\/]*$//r) . $first : $first;
        return '' if $path =~ /^crates\/(?:CRATE|NAME)\// || grep { -e } glob $path;
        return "no file or folder `$path`";
    }
    if (!$crate{$first}) {
        return $sort eq 'declaration' ? '' : "no crate `$first` in crates.txt";
    }
    if ($sort eq 'edit') {
        return -e "crates/$first/must-fail/$second.edit" ? '' : "no edit `$first/$second` in crates/$first/must-fail";
    }
    if ($sort eq 'function') {
        return declared($first)->{functions}{$second} ? '' : "no function `$first\::$second` in crates/$first/src";
    }
    my @missing = grep { !declared($first)->{names}{$_} } split / \./, $second // '';
    return @missing ? "the crate `$first` declares no `$missing[0]`" : '';
}

# The names that a crate declares, and its functions.
sub declared {
    my ($crate) = @_;
    return $declared{$crate} //= do {
        my (%names, %functions);
        my $read = sub {
            return unless /\.(antt|rt)$/;
            my $text = join '', lines($_);
            if ($1 eq 'rt') {
                $functions{$_} = 1 for $text =~ /^\s*(?:pub )?(?:extern "C" )?fn (\w+)/mg;
                $names{$_} = 1 for $text =~ /^\s*(?:pub )?(?:struct|enum|const|type) (\w+)/mg;
                $names{$_} = 1 for $text =~ /^\s*pub (\w+): /mg;
                $names{$_} = 1 for map { /^ {4}(\w+)/mg } $text =~ /^pub enum \w+[^{]*\{(.*?)^\}/msg;
            } else {
                $names{$_} = 1 for $text =~ /^\s*(?:pub )?(?:record|data) (\S+)/mg;
                $names{$_} = 1 for $text =~ /^\s*(?:abbrev |unfoldable )?(?:pub )?([^\s:({]+)(?: \{[^}]*\})? :(?=\s)/mg;
            }
        };
        find({ no_chdir => 1, wanted => $read }, grep { -e } map { "crates/$crate/$_" } qw(specs proofs src));
        { names => { %names, %functions }, functions => \%functions };
    };
}

sub lines {
    my ($file) = @_;
    open my $opened, '<', $file or die "$file: $!\n";
    return <$opened>;
}

sub fault {
    my ($page, $line, $words) = @_;
    print STDERR "$page:$line: $words\n";
    $faults++;
}
