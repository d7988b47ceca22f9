#!/usr/bin/env perl
# Holds crates/ to the rooms of crates.txt, whose headings say what each room is and may stand on. Fails
# where a crate of definitions or laws has a function, where a crate stands on one that its room may not
# stand on, where it stands on one of a later area (the subheadings, which have one order in all rooms) or a
# feature on another feature, where a crate lists one that none of its files cites (but for those of whose types it holds
# values without naming them, which its line says), and where a contract takes a definition from a file
# of proofs. Run at the root; the gate runs it.
use strict;
use warnings;
use File::Find;

# the rooms that a crate of each room may stand on; the kit is the toolchain's own libraries
my %may = (
    definitions => [qw(definitions)],
    laws => [qw(definitions laws)],
    code => [qw(definitions laws code)],
    programs => [qw(definitions laws code programs kit)],
);
# the areas from the bottom up; the features do not see each other
my @areas = qw(base text check form list shelf mailbox table acknowledgement column out);
my %rank = map { $areas[$_] => $_ } 0 .. $#areas;
my %feature = map { $_ => 1 } qw(shelf mailbox table acknowledgement column);
# edges against that order, each for one definition that stands in a room too high
my %known = map { $_ => 1 } (
    'texts shelves',                         # total, a list's sum
    'own_form_laws shelves',                 # is_normal_form
    'trimming_laws operations',              # value lists
    'trimmed_values control_elements',       # only_value
    'moving storing',                        # fill
);
my %without_code = (definitions => 1, laws => 1);

my (@crates, %room_of, %area_of, %stands_on, %holds);
my $faults = 0;
my ($room, $area);
open my $listed, '<', 'crates.txt' or die "crates.txt: $!";
while (<$listed>) {
    if (/^# (\w+):/) {
        $room = $1;
        $area = undef;
        fault("crates.txt has the heading '$room', which is no room") unless $may{$room};
    } elsif (/^## (\w+):/) {
        fault("crates.txt has the subheading '$1', which is no area") unless exists $rank{$1};
        fault("crates.txt has the area '$1' after '$area'") if defined $area && $rank{$area} >= $rank{$1};
        $area = $1;
    } elsif (/^(\w+)(?: staticlib)?:([^#]*)(?:# holds values of:(.*))?/) {
        my ($crate, $others, $held) = ($1, $2, $3 // '');
        fault("$crate stands under no heading of crates.txt") unless defined $room && defined $area;
        push @crates, $crate;
        $room_of{$crate} = $room // '';
        $area_of{$crate} = $area // 'base';
        $stands_on{$crate} = [split ' ', $others];
        $holds{$crate} = { map { $_ => 1 } split ' ', $held };
    }
}

for my $crate (@crates) {
    my ($source, $specs_and_proofs) = (text_of("crates/$crate/src", 'rt'), text_of("crates/$crate", 'antt'));
    fault("$crate is one of the $room_of{$crate} and has the function $1")
        if $without_code{ $room_of{$crate} } && $source =~ /^\h*(?:pub )?(?:extern "C" )?fn (\w+)/m;
    fault("a contract of $crate takes a definition from a file of proofs: $1")
        while $source =~ /^\h*ghost use (Rattle\.(?!std\.)\w+\.proofs\.\S+)/mg;
    for my $other (@{ $stands_on{$crate} }) {
        my $others_room = $room_of{$other} // 'kit';
        fault("$crate ($room_of{$crate}) stands on $other ($others_room), which its room may not")
            unless grep { $_ eq $others_room } @{ $may{ $room_of{$crate} } || [] };
        check_areas($crate, $other) if $others_room ne 'kit';
        fault("$crate lists $other, which none of its files cites")
            unless $others_room eq 'kit'
            || $holds{$crate}{$other}
            || "$source$specs_and_proofs" =~ /\bRattle\.$other\./
            || $source =~ /\b${other}::|\buse $other\b/;
    }
}
fault("no edge $_: it need not be known any more") for sort keys %known;
exit($faults ? 1 : 0);

# That an edge goes down in the order of the areas, and not from feature to feature.
sub check_areas {
    my ($crate, $other) = @_;
    my ($from, $to) = ($area_of{$crate}, $area_of{$other});
    return if $from eq $to;
    return if $rank{$to} < $rank{$from} && !($feature{$from} && $feature{$to});
    return if delete $known{"$crate $other"};
    fault("$crate ($from) stands on $other ($to), against the order of the areas");
}

# The files of a folder with this ending, one after the other, without comments.
sub text_of {
    my ($folder, $ending) = @_;
    my @files;
    find({ no_chdir => 1, wanted => sub { push @files, $_ if /\.$ending$/ && !m{/out/} } }, $folder);
    my $text = '';
    for my $file (sort @files) {
        open my $lines, '<', $file or die "$file: $!";
        $text .= s/(?:^|\s)(?:\/\/|--)\s.*//r =~ s/\s*$/\n/r while <$lines>;
    }
    return $text;
}

sub fault {
    print STDERR "$_[0]\n";
    $faults = 1;
}
