#!/usr/bin/env perl
# Holds the must-fail edits to what they are for. Each begins with a line that says which fact it is to break, and applies: each text
# that it looks for stands once in its file. What `rt ci` says of an edit must be that the prover refuses it, and not only because a
# proof file names what the edit took away: such an edit is refused whatever it breaks. Run at the root:
#
#     perl tools/edits.pl         the edits
#     perl tools/edits.pl LOG     and what is said of each in LOG, which is what `rt ci` or `rt must-fail` printed
use strict;
use warnings;

my ($log) = @ARGV;
my %said = $log ? map { m{^rt: must-fail (\w+/\w+)\.edit: (.*)} ? ($1 => $2) : () } lines($log) : ();
my ($faults, $read) = (0, 0);
for my $path (glob 'crates/*/must-fail/*.edit') {
    my ($crate, $name) = $path =~ m{crates/(\w+)/must-fail/(\w+)\.edit};
    my ($title, @rest) = lines($path);
    fault("$crate/$name does not begin with a line that says which fact it is to break") if ($title // '') =~ /^(?:file|old|new):|^\s*$/;
    my $why = misfit($crate, @rest);
    fault("$crate/$name cannot be applied: $why") if $why;
    next unless $log;
    my $told = $said{"$crate/$name"} // '';
    if ($told !~ /^refused, as it must be/) { fault("$crate/$name: " . ($told || 'it was not tried')) }
    elsif ($told =~ /only because a proof file names/) { fault("$crate/$name is refused first because a proof file does not fit, and shows nothing: $told") }
    else { $read++ }
}
# Those that are kept apart, since the check cannot try them, still fit their files.
for my $path (glob 'tests/edits/*/*.edit') {
    my ($crate, $name) = $path =~ m{tests/edits/(\w+)/(\w+)\.edit};
    my (undef, @rest) = lines($path);
    my $why = misfit($crate, @rest);
    fault("$crate/$name in tests/edits cannot be applied: $why") if $why;
}
print "$read must-fail edits are refused for what they break\n" if $log && !$faults;
exit($faults ? 1 : 0);

# Why an edit cannot be applied, or nothing.
sub misfit {
    my ($crate, @lines) = @_;
    my ($file, $old, $pairs, %text) = ('', undef, 0);
    for (@lines) {
        if (/^file: (.*)/) { $file = "crates/$crate/$1" }
        elsif (/^old: (.*)/) {
            return 'two texts to look for follow one another' if defined $old;
            $old = $1;
        } elsif (/^new: ?(.*)/) {
            my $new = $1;
            return 'a new text has no old one' unless defined $old;
            return "there is no file $file" unless -f $file;
            $text{$file} //= join "\n", lines($file);
            my $found = () = $text{$file} =~ /\Q$old\E/g;
            return "'$old' stands in $file $found times" if $found != 1;
            $text{$file} =~ s/\Q$old\E/$new/;
            ($old, $pairs) = (undef, $pairs + 1);
        }
    }
    return $pairs && !defined $old ? '' : 'an old text has no new one';
}

sub lines {
    my ($path) = @_;
    open my $file, '<', $path or die "$path: $!\n";
    chomp(my @lines = <$file>);
    return @lines;
}

sub fault {
    print "$_[0]\n";
    $faults++;
}
