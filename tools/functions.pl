#!/usr/bin/env perl
# Lists every public function of crates/, crate by crate in the order of crates.txt, with what is
# required of a caller and what it ensures; then every function that has a `requires`, and every public
# one whose contract is no equation. Fails where a public function ensures nothing, but for those that
# only print or ask the system, where an operation has a `requires`, and where a contract leaves something open that
# docs/CONTRACTS.md does not name. Run at the root; its output is docs/FUNCTIONS.md, and the gate compares the two.
use strict;
use warnings;
use utf8;
use File::Find;
binmode $_, ':encoding(UTF-8)' for *STDOUT, *STDERR;

# what nothing can be ensured of: no contract speaks of what is written to standard output, or of how a program was started
my %prints = (printing => 1);
my %asks = ('inputs::argument_count' => 1);
# the crates that C and Rust link
my %exports = (surface => 1, surface_c => 1);
# the operations of paper 01, the second Judge of request 2026-08, Acknowledge of 2026-11, Export and Import of 2026-12; whatever `surface` exports for C and Rust is one too
my %operation = map { $_ => 1 } qw(
    judge::judge normalise::normalise compare::compare compare::keep locate::locate locate::part read::read write::write
    judge_by_table::judge_by_table acknowledge::acknowledge export_columns::export_columns import_columns::import_columns
);

print <<"HEAD";
# Every public function and its contract

Made by `perl tools/functions.pl`; the gate fails where this list and the code differ, where a public function has no contract, but for
those of `printing` and for `inputs::argument_count`, which are public for our own programs (no contract can speak of what is written to
standard output, or of how a program was started), and where one of the operations, or a function of `surface` or `surface_c`, has a `requires`. A helper that is public only for another crate of ours may have one; all
functions that have one are listed at the end. What a public trait declares stands under the trait's name. `s.now` is what is lent to be read, `buffer.old` what is lent to be
written, `buffer.new` what is there afterwards, `result` the answer.
HEAD

open my $listed, '<', 'crates.txt' or die "crates.txt: $!";
my $faults = 0;
my (@requiring, @open);
# the functions that docs/CONTRACTS.md names
open my $page, '<:encoding(UTF-8)', 'docs/CONTRACTS.md' or die "docs/CONTRACTS.md: $!";
my %exception = map { $_ => 1 } map { /`(\w+::\w+)`/g } <$page>;
# relations that leave one result: the promises, each with its theorem, and those that are made of equations
my %one_result = map { $_ => 1 } qw(
    Judges Normalises Compares Keeps Locates HandsBack Writes JudgesByTable Starts Gets Measures Removes Carries CarriesBack Acknowledges Exports Imports
    ReadsOut WritesOut AcknowledgesOut Refuses Written PutAt Stores Tallies Heads PutStays Says
    SaysJudged SaysJudgedByTable SaysNormalised SaysCompared SaysKept SaysLocated SaysPart SaysListed SaysWritten SaysAcknowledged SaysExported SaysImported
    SaysStarted SaysPut SaysGot SaysRemoved SaysCounted SaysSummed SaysCarried SaysCarriedBack SaysReported
), 'read Reads', 'report Reports', 'shelf Puts', 'shelf Counts', 'shelf Sums', 'shelf CopyAt', 'column_lines Ends', map { "$_ Puts" } qw(held_separators value_list_text received_pieces);
for my $crate (map { /^(\w+)(?: staticlib)?:/ } <$listed>) {
    my @sources;
    find({ no_chdir => 1, wanted => sub { push @sources, $_ if /\.rt$/ } }, "crates/$crate/src");
    my @functions = map { functions_of($_) } sort @sources;
    check($crate, $_) for @functions;
    delete $operation{"$crate\::$_->{name}"} for @functions;
    my @public = grep { $_->{public} } @functions;
    print "\n## $crate\n" if @public;
    print "\n", item($_) for @public;
    push @requiring, map { [$crate, $_] } grep { $_->{requires} } @functions;
    for my $f (@public) {
        my @parts = open_parts($f) or next;
        push @open, ["$crate\::$f->{name}", \@parts];
        fault("$f->{file}: docs/CONTRACTS.md does not say what the contract of $crate\::$f->{name} leaves open")
            if (grep { !$one_result{"$crate $_"} && !$one_result{$_} } @parts) && !$exception{"$crate\::$f->{name}"} && !$prints{$crate};
    }
}
fault("crates/: no function $_") for sort keys %operation;

print <<"HEAD";

## Functions with a `requires`

By crate; those in **bold** are public for other crates of ours, the others are seen by their own crate alone.

HEAD
my %lines;
for (@requiring) {
    my ($crate, $function) = @$_;
    push @{ $lines{$crate} }, $function->{public} ? "**`$function->{name}`**" : "`$function->{name}`";
}
my %seen;
print "- $_: ", join(', ', @{ $lines{$_} }), "\n" for grep { !$seen{$_}++ } map { $_->[0] } @requiring;

print <<"HEAD";

## Contracts that are no equation

Public functions whose contract says something of the answer or of a lent buffer by a relation, a bound or an implication, with what it says there; bounds beside
an equation are left out. A relation that leaves one result is one of the promises (docs/CONTRACTS.md, "The contracts, and that each leaves one result") or made of equations,
and is named in `tools/functions.pl`. The gate fails where docs/CONTRACTS.md names neither the relation nor the function.

HEAD
print "- `$_->[0]`: ", join('; ', map { "`$_`" } @{ $_->[1] }), "\n" for @open;
exit($faults ? 1 : 0);

# What a contract says that is no equation: its relations, and where it has no equation at all its bounds and implications.
sub open_parts {
    my ($f) = @_;
    my (@relations, @others, $equations);
    for my $clause (grep { /^ensures/ } @{ $f->{clauses} }) {
        my ($said) = $clause =~ /^ensures(?: \w+)? \{\s*(.*?)\s*\}\s*$/s or next;
        for my $part (parts_of($said =~ s/\s+/ /gr)) {
            if ($part =~ /→/ && $part !~ /^[A-Z]/) { push @others, $part }
            elsif ($part =~ /^([A-Z]\w*)\b/) { push @relations, $1 }
            elsif ($part =~ /≡/) { $equations++ }
            else { push @others, $part }
        }
    }
    return (@relations, $equations ? () : @others);
}

# The conjuncts of a proposition, without the brackets around each.
sub parts_of {
    my ($text) = @_;
    $text = $1 while $text =~ /^\(([^()]*(?:\((?:[^()]|\((?:[^()]|\([^()]*\))*\))*\)[^()]*)*)\)$/;
    my ($depth, @parts) = (0, '');
    for my $letter (split //, $text) {
        $depth++ if $letter eq '(';
        $depth-- if $letter eq ')';
        if ($letter eq '×' && !$depth) { push @parts, '' }
        else { $parts[-1] .= $letter }
    }
    s/^\s+|\s+$//g for @parts;
    return @parts == 1 ? @parts : map { parts_of($_) } @parts;
}

# The functions of a file: name, signature, clauses of the contract. What a public trait declares is public, under the trait's name; a
# method of an impl has the contract that its trait declares, and is not listed.
sub functions_of {
    my ($file) = @_;
    open my $source, '<:encoding(UTF-8)', $file or die "$file: $!";
    my $text = join '', <$source>;
    my @functions;
    $text =~ s/^impl\b[^{;]*\bfor\b[^{]*\{\n.*?^\}\n//msg;
    while ($text =~ s/^(pub )?trait (\w+)[^{]*\{\n(.*?)^\}\n//ms) {
        my ($public, $trait, $declared) = ($1, $2, $3);
        push @functions, map { $_->{name} = "$trait\::$_->{name}"; $_->{public} = $public; $_ } declared_in($file, $declared);
    }
    return (declared_in($file, $text), @functions);
}

sub declared_in {
    my ($file, $text) = @_;
    my @functions;
    # what stands before the body, whose brace ends the signature's line or has a line of its own; a declaration ends with a semicolon
    while ($text =~ /^\h*((pub )?(?:extern "C" )?fn (\w+).*?)(?:^\h*\{|\{\}?$|;$)/msg) {
        my ($public, $name) = ($2, $3);
        my ($signature, @clauses) = split /^\s+(?=requires\b|ensures\b)/m, $1;
        push @functions, {
            file => $file, name => $name, public => $public, signature => $signature, clauses => \@clauses,
            requires => scalar(grep { /^requires/ } @clauses), ensures => scalar(grep { /^ensures/ } @clauses),
        };
    }
    return @functions;
}

sub check {
    my ($crate, $f) = @_;
    return unless $f->{public};
    fault("$f->{file}: no contract: $f->{name}") unless $f->{ensures} || $prints{$crate} || $asks{"$crate\::$f->{name}"};
    fault("$f->{file}: an operation with a requires: $f->{name}")
        if $f->{requires} && ($exports{$crate} || $operation{"$crate\::$f->{name}"});
}

sub fault {
    print STDERR "$_[0]\n";
    $faults++;
}

sub item {
    my ($f) = @_;
    my ($signature, @clauses) = map { s/\s+/ /gr =~ s/ $//r } $f->{signature}, @{ $f->{clauses} };
    my $of = $f->{name} =~ /^(\w+)::/ ? "`$1`: " : '';
    return join '', "- $of`$signature`\n", map { "  - `$_`\n" } @clauses;
}
