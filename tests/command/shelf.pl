#!/usr/bin/env perl
# shelf.pl HVEROLDA KILLS ROUNDS: the command over a shelf in a file. KILLS runs are killed at random moments, and in each of
# ROUNDS rounds eight run at once on one file while others are killed beside them. Whatever happens, the file is the shelf that
# undisturbed runs make, or the one before, no put is lost and every copy is counted once; what a killed run leaves, a lock or
# a file, stops nobody. Among the killed runs are some that carry the shelf into its other version, and back; and while eight
# take their texts away, another carries the shelf back and over.
# It says what it did in one line, and dies of anything else.
use strict;
use warnings;
use Fcntl ':flock';
use File::Temp 'tempdir';
use POSIX qw(_exit SIGXFSZ);
use Time::HiRes qw(time sleep);

my ($hverolda, $kills, $rounds) = @ARGV;
my $folder = tempdir(CLEANUP => 1);

sub bytes_of { my ($name) = @_; local $/; open my $file, '<:raw', $name or die "$name: $!"; return <$file> }

# an interchange of its own for each number, as a file
sub interchange {
    my ($number) = @_;
    my $name = "$folder/$number.edi";
    open my $file, '>:raw', $name or die "$name: $!";
    my $user = join '', map { "LIN+$_+$number'" } 1 .. 10;
    printf $file "UNB+UNOA:1+AA+BB+260105:0930+R%d'UNH+1+ORDERS:1:901:UN'%sUNT+12+1'UNZ+1+R%d'", $number, $user, $number;
    close $file;
    return $name;
}

# the command's answer, trouble with it, and its status
sub hverolda {
    my @words = @_;
    my $process = open my $pipe, '-|';
    defined $process or die $!;
    if (!$process) {
        open STDERR, '>&', \*STDOUT;
        exec $hverolda, @words or _exit(127);
    }
    my $answer = do { local $/; <$pipe> } // '';
    close $pipe;
    return ($answer, $? >> 8);
}

sub expect {
    my ($wanted, $status, @words) = @_;
    my ($answer, $got) = hverolda('shelf', @words);
    die "shelf @words: '$answer', status $got\n" unless $answer =~ /^(?:$wanted)$/ && $got == $status;
    return $answer;
}

# a process of its own that does this; it ends with this one
my %begun;
sub begin {
    my ($does) = @_;
    my $process = fork // die $!;
    if ($process) {
        $begun{$process} = 1;
        return $process;
    }
    eval { $does->(); 1 } or do { warn $@; _exit(1) };
    _exit(0);
}
sub ended { my ($process) = @_; waitpid $process, 0; delete $begun{$process}; return $? }
END { my $status = $?; kill 'KILL', keys %begun; $? = $status }

# a run with nobody to hear it
sub begin_run {
    my @words = @_;
    return begin(sub {
        open STDOUT, '>', '/dev/null';
        open STDERR, '>', '/dev/null';
        exec $hverolda, 'shelf', @words or _exit(127);
    });
}

sub end { my ($process) = @_; kill 'KILL', $process; ended($process) }

sub store { my ($name, $bytes) = @_; open my $file, '>:raw', $name or die "$name: $!"; print $file $bytes; close $file or die $! }

# ---- killed at random moments: an undisturbed shelf beside it says what must be there

my ($tried, $twin) = ("$folder/tried", "$folder/twin");
expect("started 30000\n", 0, $_, 'start', 30000) for $tried, $twin;
my ($before_it, $after_it, $left, $starts, $copied, $carried) = (0, 0, 0, 0, 0, 0);
# when a run changes the file, in seconds from its beginning: every other moment is close to it
my $time = time;
expect("new 0\n", 0, $_, 'put', interchange(0)) for $tried, $twin;
my $moment = (time - $time) / 2;

# a copy of the shelf carried back, and over again, each by a run that is killed: it is of the one version or of the other, whole
sub carry_killed {
    my ($bytes) = @_;
    my ($mine, $other) = ("$folder/carried", "$folder/carried-twin");
    store($_, $bytes) for $mine, $other;
    for my $way (['carry-back', "carried back\n"], ['carry', "carried\n"]) {
        my ($verb, $said) = @$way;
        my $before = bytes_of($mine);
        my $process = begin_run($mine, $verb);
        sleep $moment * rand 2;
        end($process);
        expect($said, 0, $other, $verb);
        if (bytes_of($mine) eq $before) {
            expect($said, 0, $mine, $verb);
            die "a file is left beside what was carried\n" if -e "$folder/.carried.hverolda-0";
        } else {
            $carried++;
        }
        die "neither of the one version nor of the other\n" unless bytes_of($mine) eq bytes_of($other);
    }
    # the duplicates figure is lost
    substr $bytes, 17, 4, "\0" x 4;
    die "there and back gives other bytes\n" unless bytes_of($mine) eq $bytes;
}

for my $number (1 .. $kills) {
    # of four puts the last is a copy of the one before
    my @change = $number % 60 >= 40 ? ('remove', $number % 60 - 40)
        : ('put', $number % 4 == 3 ? "$folder/" . ($number - 1) . '.edi' : interchange($number));
    my $before = bytes_of($tried);
    my $process = begin_run($tried, @change);
    sleep $moment * ($number % 2 ? rand 2 : 0.7 + rand 0.6);
    end($process);
    my $after = bytes_of($tried);
    $left++ if -e "$folder/.tried.hverolda-0";
    expect("occupied \\d+\n(?s:.*)", 0, $tried, 'list');
    my ($answer) = hverolda('shelf', $twin, @change);
    $copied++ if $answer =~ /^copy /;
    if ($after eq $before) {
        my ($again) = hverolda('shelf', $tried, @change);
        die "again: '$again' for '$answer'\n" unless $again eq $answer;
        $before_it++;
        $moment *= 1.2;
    } else {
        $after_it++;
        $moment /= 1.2;
    }
    die "neither the old shelf nor the new one\n" unless bytes_of($tried) eq bytes_of($twin);

    next if $number % 5;
    carry_killed(bytes_of($tried));
    # a start: no file at all, or a whole one
    my $started = "$folder/started$number";
    $process = begin_run($started, 'start', 600);
    sleep $moment * rand 2;
    end($process);
    $starts++ if -e $started;
    -e $started ? expect("hverolda: .*: File exists.*\n", 2, $started, 'start', 600) : expect("started 600\n", 0, $started, 'start', 600);
    expect("occupied 0\nheld 0\nfree 67\nduplicates 0\n", 0, $started, 'list');
}
expect("occupied \\d+\nheld \\d+\nfree \\d+\nduplicates $copied\n(?s:.*)", 0, $tried, 'list');

# ---- what a killed run leaves

# half a file: the run is killed in the middle of writing it
my $half = "$folder/half";
expect("started 65536\n", 0, $half, 'start');
my $limit = 'ulimit -c 0; ulimit -f 16; exec "$@"';
system 'sh', '-c', $limit, 'sh', $hverolda, 'shelf', $half, 'put', "$folder/0.edi";
die "not killed in the middle: $?\n" unless ($? & 127) == SIGXFSZ;
my $size = -s "$folder/.half.hverolda-0";
die "no half file\n" unless $size && $size < 65536;
expect("occupied 0\nheld 0\nfree 65003\nduplicates 0\n", 0, $half, 'list');
expect("new 0\n", 0, $half, 'put', "$folder/0.edi");
die "the half file stays\n" if -e "$folder/.half.hverolda-0";
system 'sh', '-c', $limit, 'sh', $hverolda, 'shelf', "$folder/none", 'start';
die "a half shelf\n" if -e "$folder/none" || !-e "$folder/.none.hverolda-0";
expect("started 65536\n", 0, "$folder/none", 'start');
die "the half file stays\n" if -e "$folder/.none.hverolda-0";

# a lock: whoever waits for a run that has it goes on when that one is killed
pipe my $told, my $tell or die $!;
my $holder = begin(sub {
    open my $file, '+<', $half or _exit(1);
    flock $file, LOCK_EX or _exit(1);
    syswrite $tell, 'x';
    sleep 1000;
});
sysread $told, my $is_held, 1;
my $waiting = begin_run($half, 'put', interchange(1));
sleep 0.3;
die "it did not wait\n" if waitpid($waiting, POSIX::WNOHANG()) || expect("occupied 1\n(?s:.*)", 0, $half, 'list') !~ /^0 /m;
end($holder);
my $status = ended($waiting);
die "what waited: status $status\n" if $status;
expect("copy 1\n", 1, $half, 'put', "$folder/1.edi");

# ---- eight at once: each puts seven of its own and one that all put, and takes away what was new; others are killed beside them

# what each of eight processes prints, by lines
sub eight {
    my ($does) = @_;
    my @pipes;
    for my $run (0 .. 7) {
        my $process = open my $pipe, '-|';
        defined $process or die $!;
        if (!$process) {
            print $does->($run);
            close STDOUT;
            _exit(0);
        }
        push @pipes, $pipe;
    }
    return map { my $pipe = $_; my @lines = <$pipe>; close $pipe; [@lines] } @pipes;
}

for my $round (1 .. $rounds) {
    my $shared = "$folder/shared$round";
    expect("started 65536\n", 0, $shared, 'start');
    my @names = map { my $run = $_; [map { interchange(100_000 + 8 * $run + $_) } 0 .. 6] } 0 .. 7;
    my $all = interchange(200_000);
    my @others = map { interchange(300_000 + $_) } 1 .. 7;
    my $killer = begin(sub {
        for my $other (@others) { my $process = begin_run($shared, 'put', $other); sleep $moment * rand 2; end($process) }
    });
    my @told = eight(sub {
        my ($run) = @_;
        return map { (hverolda('shelf', $shared, 'put', $_))[0] } @{$names[$run]}[0 .. 3], $all, @{$names[$run]}[4 .. 6];
    });
    ended($killer);
    my (%slots, @of_run, $copies, %new);
    for my $run (0 .. 7) {
        my @put = (@{$names[$run]}[0 .. 3], $all, @{$names[$run]}[4 .. 6]);
        die "at once: @{$told[$run]}" unless @{$told[$run]} == 8;
        for my $line (@{$told[$run]}) {
            my $name = shift @put;
            $line =~ /^(new|copy) (\d+)$/ or die "at once: $line";
            $slots{$2} = $name;
            $copies++, next if $1 eq 'copy';
            die "slot $2 twice\n" if $new{$2}++;
            push @{$of_run[$run]}, $2;
        }
    }
    die "at once: $copies copies\n" unless $copies == 7 && keys %slots == 57 && keys %new == 57;
    while (my ($slot, $name) = each %slots) {
        my ($text) = hverolda('shelf', $shared, 'get', $slot);
        die "slot $slot has another text\n" unless $text eq (hverolda('normalise', $name))[0];
    }
    expect("occupied \\d+\nheld \\d+\nfree \\d+\nduplicates $copies\n(?s:.*)", 0, $shared, 'list');
    # another carries the shelf back and over meanwhile: whoever finds version 1 asks again
    my $carrier = begin(sub {
        for (1 .. 3) { expect("carried back\n", 0, $shared, 'carry-back'); sleep $moment; expect("carried\n", 0, $shared, 'carry') }
    });
    my $remove = sub { my ($slot, $told) = @_; do { ($told) = hverolda('shelf', $shared, 'remove', $slot) } while $told =~ /: refused 19 /; return $told };
    # what is left is what the killed runs put, each once
    my @removed = eight(sub { my ($run) = @_; return map { $remove->($_) } @{$of_run[$run]} });
    die "it was not carried\n" if ended($carrier);
    die "removed: @$_" for grep { grep { !/^removed \d+$/ } @$_ } @removed;
    my @slots = (hverolda('shelf', $shared, 'list'))[0] =~ /^(\d+) \d+$/mg;
    my %killed = map { (hverolda('normalise', $_))[0] => 1 } @others;
    for my $slot (@slots) {
        my ($text) = hverolda('shelf', $shared, 'get', $slot);
        die "slot $slot has what nobody put, or twice\n" unless delete $killed{$text};
        expect("removed \\d+\n", 0, $shared, 'remove', $slot);
    }
    # an empty shelf; the duplicates found were lost on the way back
    die "not empty, or with duplicates\n" unless bytes_of($shared) eq "EDS\0\2" . "\0" x 65531;
    my $beside = "$folder/.shared$round.hverolda-0";
    die "left behind: $beside\n" if -e $beside;
}
print "$kills killed, $copied of them puts of copies: $before_it before the change ($left with a file half done), $after_it after it; "
    . int($kills / 5) . " killed starts: $starts after it; " . 2 * int($kills / 5) . " killed carryings: $carried after it; $rounds times eight at once, and one that carries: nothing lost\n";
